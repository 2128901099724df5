/** Further questions on a table. Each says what the answer means, and shows the program's own text. */
import { tableAnswers } from "./answers.js";
import { HOW_POWER_DRAWS, drawBehaviours, shareInWords, sharesTable } from "./benchmark.js";
import { checkInWords, kindOf } from "./claims.js";
import { button, folded, keepFile, labelled, listOf, make, printed, say, tableOf } from "./dom.js";
import { MOST_SEED } from "./draws.js";
import { limit, range } from "./facts.js";
import { LACKS_CHECK, lacksFit } from "./fit.js";
import { fileOf, intervalPicture } from "./pictures.js";
import {
  Purchases,
  asNumber,
  cycleSentences,
  decimal,
  numbersIn,
  parseFault,
  parseReport,
  placesOf,
  withDecimal,
} from "./reports.js";
import {
  WIDE,
  WIDE_MEANS,
  demandBounds,
  demandSays,
  powerSays,
  pumpSays,
  reportBy,
  utilitySays,
  welfareBounds,
  welfareSays,
} from "./says.js";
import { sentence } from "./sentences.js";
import { bytesOf, parseRecords, placeInFile, placeInWords, writeRecords } from "./sheets.js";

/** A name for what is typed beside a file, other than the file's own. */
export function nameBeside(name, ...taken) {
  return taken.includes(name) ? nameBeside(`the ${name}`, ...taken) : name;
}

/** What is told where a file is refused: where in the text that was typed the fault stands, and what it means. */
function refusalOf({ status, told }, typed) {
  const fault = status === 4 ? parseFault(told) : null;
  if (!fault?.means) return [];
  const records = typed && fault.file === typed.name ? parseRecords(new TextDecoder().decode(typed.bytes), ",") : null;
  const place = records?.length ? placeInWords(placeInFile(fault, records, null)) : "";
  return [make("p", { className: "fault", textContent: `${fault.fault}${place}. ${fault.means}` })];
}

/** Shows an answer: what it means, and the program's texts; or what is told where there is none. */
function showAnswer(place, answer, before = [], typed = null) {
  const { output, told } = answer;
  const text = output ? folded(reportBy(answer.stated ?? answer.refused), printed(output)) : null;
  if (text && !before.length) text.open = true;
  place.replaceChildren(
    ...refusalOf(answer, typed),
    ...(told ? [printed(told, "what the program says")] : []),
    ...before,
    ...(text ? [text] : []),
  );
}

/** A verdict with what it says. */
export const verdictOf = ({ head, says }) => make(
  "div",
  {},
  make("p", { className: "verdict", textContent: head }),
  say(says),
);

/** A question with its fields, a button and a place for the answer, which is gone as soon as a field is changed. */
export function question(says, explains, fields, ask) {
  const place = make("div", { attrs: { "aria-live": "polite" } });
  let number = 0;
  const go = button("Run", async () => {
    number += 1;
    const own = number;
    const only = { replaceChildren: (...children) => own === number && place.replaceChildren(...children) };
    place.replaceChildren(say("…"));
    try {
      await ask(only, () => own === number);
    } catch (error) {
      only.replaceChildren(make("p", { className: "fault", textContent: `No result: ${error.message}.` }));
    }
  });
  const row = make("div", { className: "row" }, ...fields);
  for (const kind of ["input", "change"]) {
    row.addEventListener(kind, () => {
      number += 1;
      place.replaceChildren();
    });
  }
  return folded(says, say(explains), row, make("div", { className: "row" }, go), place);
}

export function area(text, rows = 4) {
  return make("textarea", { value: text, rows, spellcheck: false });
}

const violated = (item) => verdictOf(sentence(item, "none"));

/** What the mark of bounds means, where one of them has it. */
const wideNote = (bounds) => (bounds.some((it) => it.wide.length) ? [say(WIDE_MEANS)] : []);

/** The picture of the bounds of one budget, and what they say. */
function boundsOfBudget(bounds, number) {
  const goods = bounds.map(({ name, lower, upper }) => ({
    name,
    lower: lower === null ? null : asNumber(lower),
    upper: upper === null ? null : asNumber(upper),
  }));
  const svg = intervalPicture(goods);
  const caption = `Bounds on each good at budget ${number}, in the units of the table.`;
  return [
    make(
      "figure",
      {},
      svg,
      make("figcaption", { textContent: caption }),
      button("Keep the picture as SVG", () => keepFile("demand.svg", fileOf(svg), "image/svg+xml")),
    ),
    listOf(bounds.flatMap(demandSays)),
  ];
}

function demandQuestion(client, file, table) {
  const prices = table.prices[0].map((it) => decimal(it, table.pricePlaces));
  const spent = table.money(table.cost(0, 0));
  const field = area(`${table.goods.map((it) => `p_${it}`).join(",")},m\n${prices.join(",")},${spent}\n`);
  const explains =
    "Prices of each good and the expenditure (m), a row for each budget. The bounds are over all demands with which " +
    "GARP still holds.";
  const name = nameBeside("new prices", file.name);
  return question("Demand: what could this consumer choose at new prices?", explains, [
    labelled("New prices as CSV", field),
  ], async (place) => {
    const typed = { name, bytes: bytesOf(field.value) };
    const answer = await client.answer(["demand", file.name, name], [file, typed]);
    const bounds = demandBounds(answer.output, table.goods, table.quantityPlaces, answer.stated);
    const shown = [];
    for (let at = 0; at < bounds.length; at += table.goods.length) {
      shown.push(...boundsOfBudget(bounds.slice(at, at + table.goods.length), at / table.goods.length + 1));
    }
    shown.push(...wideNote(bounds));
    if (answer.status === 0 && !bounds.length) shown.push(violated("demand"));
    showAnswer(place, answer, shown, typed);
  });
}

/** The most places of a price in what was typed. */
export function pricePlacesOf(text) {
  const records = parseRecords(text, ",");
  const priced = (records[0] ?? []).flatMap((name, at) => (name.trim().startsWith("p_") ? [at] : []));
  return Math.max(0, ...records.slice(1).flatMap((row) => priced.map((at) => placesOf(row[at] ?? ""))));
}

/** Bounds of welfare as a table, and in words for the first observation. */
function boundsByObservation(bounds) {
  const told = (it, side) =>
    it[side] === null ? "withheld" : `${withDecimal(it[side])}${it.wide.includes(side) ? ` ${WIDE}` : ""}`;
  const rows = bounds.map((it) => [String(it.record), it.observation, told(it, "lower"), told(it, "upper"), it.at]);
  const names = ["record", "observation", "at least", "at most", "by the bundle of"];
  return [
    tableOf(names, rows, "what it costs to be as well off"),
    say(`In words, of the first row: ${welfareSays(bounds[0])}`),
    ...wideNote(bounds),
  ];
}

function welfareQuestion(client, file, table) {
  const prices = table.prices[0].map((it) => decimal(it, table.pricePlaces));
  const field = area(`${table.goods.map((it) => `p_${it}`).join(",")}\n${prices.join(",")}\n`);
  const explains =
    "Prices of each good. For each observation: bounds on what it costs at these prices to be as well off as there, " +
    "in the units of the prices.";
  const name = nameBeside("new prices", file.name);
  return question("Welfare: what would the old living standard cost at new prices?", explains, [
    labelled("New prices as CSV", field),
  ], async (place) => {
    const typed = { name, bytes: bytesOf(field.value) };
    const answer = await client.answer(["welfare", file.name, name], [file, typed]);
    const bounds = welfareBounds(answer.output, pricePlacesOf(field.value) + table.quantityPlaces, answer.stated);
    const shown = answer.status !== 0 ? [] : bounds.length ? boundsByObservation(bounds) : [violated("welfare")];
    showAnswer(place, answer, shown, typed);
  });
}

function utilityQuestion(client, file, table) {
  const field = area(
    `${table.goods.map((it) => `q_${it}`).join(",")}\n` +
      `${table.quantities[0].map((it) => decimal(it, table.quantityPlaces)).join(",")}\n`,
  );
  const explains =
    "Quantities of each good, a row for each bundle. The utility is in the scale of the Afriat numbers: the bundle " +
    "with more utility is better.";
  const name = nameBeside("bundles", file.name);
  return question("Other bundles: their utility by Afriat's numbers", explains, [
    labelled("Bundles as CSV", field),
  ], async (place) => {
    const typed = { name, bytes: bytesOf(field.value) };
    const answer = await client.answer(["utility", file.name, name], [file, typed]);
    const says = utilitySays(answer.output, Boolean(table.levels));
    showAnswer(place, answer, says.length ? [listOf(says)] : [], typed);
  });
}

function powerQuestion(client, file) {
  const [seed, draws] = [numberField(1, ...range("power", "SEED")), numberField(1000, ...range("power", "N"))];
  return question("rp power: random behaviour as the command draws it", HOW_POWER_DRAWS, [
    labelled("Seed", seed),
    labelled("Draws", draws),
  ], async (place) => {
    const answer = await client.answer(["power", file.name, seed.value, draws.value], [file]);
    const says = powerSays(answer.output);
    showAnswer(place, answer, says ? [verdictOf(says)] : []);
  });
}

/**
 * Random behaviour on a table's budget lines, drawn as beside a panel, and where the table's own index stands in it.
 */
function uniformQuestion(client, file, table, { working, progress, tell }) {
  const most = limit("command_line.draws");
  const [seed, draws] = [numberField(1, 0, MOST_SEED), numberField(most, 1, most)];
  const explains =
    "Each random behaviour takes a point of each budget line, and every point is equally likely (Bronars 1987). " +
    "The same seed draws the same bundles in the packages for Python and R.";
  return question("Power: would random choices have passed the test?", explains, [
    labelled("Seed", seed),
    labelled("Random behaviours", draws),
  ], async (place, isCurrent) => {
    if (![seed, draws].every((it) => it.reportValidity())) {
      place.replaceChildren();
      return;
    }
    const [found, began] = [[], performance.now()];
    const own = parseReport((await client.answer(["analyse", file.name], [file])).output).items.efficiency.verdict;
    await working(() => drawBehaviours(client, [() => table], Number(seed.value), Number(draws.value), (parts) => {
      found.push(...parts);
      if (isCurrent()) progress(found.length, Number(draws.value), began, "random behaviours");
    }));
    const fails = found.filter((it) => it.garp === "violated").length;
    if (isCurrent()) tell(`${found.length} random behaviours: done.`);
    place.replaceChildren(
      make("p", { className: "verdict", textContent: `${shareInWords(fails, found.length)} violate GARP` }),
      sharesTable({ "this table": [own.split(" ")[0]], "random behaviour": found.map((it) => it.efficiency) }),
      say("This is a count for one seed, not a probability."),
    );
  });
}

/** The table with a level of the same thousandths at each observation. */
export function withLevel(bytes, thousandths) {
  const records = parseRecords(new TextDecoder().decode(bytes).replace(/^\ufeff/, ""), ",");
  return bytesOf(writeRecords(records.map((row, at) => [...row, at ? String(thousandths) : "e"])));
}

function levelQuestion(client, file, hasOwnMoney) {
  const level = numberField(950, 1, limit("table.level_scale"));
  const explains =
    "How many thousandths of each expenditure count. A column e in the file gives each observation a level of its own.";
  return question("Efficiency levels (column e): test each observation at a lower level", explains, [
    labelled("Thousandths", level),
  ], async (place) => {
    const held = { name: file.name, bytes: withLevel(file.bytes, level.value) };
    const answer = await client.answer(["analyse", file.name], [held]);
    if (answer.status !== 0) {
      showAnswer(place, answer);
      return;
    }
    const certificate = async () => (await client.answer(["certify", file.name], [held])).output;
    const records = parseRecords(new TextDecoder().decode(held.bytes), ",");
    place.replaceChildren(
      make("p", { className: "note", textContent: `With a column e of ${level.value} added to every record:` }),
      tableAnswers(answer.output, new Purchases(records), certificate, hasOwnMoney, answer.stated),
    );
  });
}

/** The command that checks a certificate, and its edition: goodness of fit of a table has one of its own. */
export const checkedBy = (command, text) =>
  command === "check" && kindOf(text) === "fit" ? ["checkfit", "rp-wide"] : [command, null];

/** Of the two ways to give a certificate the one that was used last counts: the other is emptied. */
export function checkQuestion(client, says, files, words, hasOwnMoney = false) {
  const chooser = make("input", { type: "file", accept: ".json,application/json" });
  const pasted = area("", 3);
  chooser.addEventListener("change", () => (pasted.value = ""));
  pasted.addEventListener("input", () => (chooser.value = ""));
  const explains =
    "The checker needs the data and the certificate only. It says whether the certificate proves its verdicts.";
  return question(says, explains, [
    labelled("Certificate", chooser),
    labelled("or its text", pasted),
  ], async (place) => {
    const bytes = chooser.files[0] ? new Uint8Array(await chooser.files[0].arrayBuffer()) : bytesOf(pasted.value);
    const name = nameBeside("certificate", ...files.map((it) => it.name));
    const text = new TextDecoder().decode(bytes);
    const [command, edition] = checkedBy(words[0], text);
    const named = [...files.map((it) => it.name), name, ...words.slice(1)];
    const answer = await client.answer([command, ...named], [...files, { name, bytes }], edition);
    if (command === "checkfit" && lacksFit(answer)) {
      place.replaceChildren(say(LACKS_CHECK));
      return;
    }
    const isAnswer = answer.status === 0 || answer.status === 1;
    const told = isAnswer ? checkInWords(answer.output, text, hasOwnMoney) : [];
    const [first] = told;
    showAnswer(place, answer, told.length > 1 ? [listOf(told)] : told.length ? [say(first)] : []);
  });
}

/** The first two observations that contradict each other, in words. */
function pairsSays(output, table) {
  const levels = Boolean(table.levels);
  const it = /^pair (\d+) (\d+)$/m.exec(output);
  if (!it) return [verdictOf(sentence("pairs", "none", { levels }))];
  const [first, second] = [Number(it[1]), Number(it[2])];
  return [
    verdictOf(sentence("pairs", "pair", { levels }, { first, second })),
    listOf(cycleSentences([first, second, first], table)),
  ];
}

/** The questions on one table. */
export function tableQuestions(client, file, table, shows, hasOwnMoney = false) {
  const pair = question(
    "The first two observations that contradict each other",
    "This looks at two observations at a time. GARP above looks at cycles of any length.",
    [],
    async (place) => {
      const answer = await client.answer(["pairs", file.name], [file]);
      showAnswer(place, answer, answer.status === 0 ? pairsSays(answer.output, table) : []);
    },
  );
  const pump = question(
    "Money pump: how much money could a cycle cost?",
    "The maximum share of expenditure that a trader could extract along a cycle (Echenique, Lee and Shum 2011).",
    [],
    async (place) => {
      const answer = await client.answer(["pump", file.name], [file]);
      const cycle = answer.status === 0 ? numbersIn(parseReport(answer.output).items.pump.cycle) : [];
      const steps = cycle.length > 2 ? [listOf(cycleSentences(cycle, table))] : [];
      showAnswer(place, answer, answer.status === 0 ? [verdictOf(pumpSays(answer.output)), ...steps] : []);
    },
  );
  const check = checkQuestion(client, "Check a certificate on this table", [file], ["check"], hasOwnMoney);
  if (table.levels) {
    const without = "Demand, welfare, the money pump and power are defined without levels: leave the column e out " +
      "for them.";
    return [say(without), pair, utilityQuestion(client, file, table), check];
  }
  return [
    pair,
    ...(hasOwnMoney ? [] : [pump]),
    demandQuestion(client, file, table),
    welfareQuestion(client, file, table),
    utilityQuestion(client, file, table),
    uniformQuestion(client, file, table, shows),
    powerQuestion(client, file),
    levelQuestion(client, file, hasOwnMoney),
    check,
  ];
}
