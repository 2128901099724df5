/** Goodness of fit on the page: a card for each index, in words, and what asks for them. */
import { Stopped } from "./client.js";
import { button, cardsAt, folded, keepFile, listOf, make, printed, say, tableOf } from "./dom.js";
import {
  LACKS_FIT,
  boundsSay,
  fitPumpSays,
  goneOf,
  goneSay,
  homotheticSays,
  indexFile,
  indexRows,
  keptSays,
  lacksFit,
  levelRows,
  levelsSay,
  parseFit,
  quasilinearSays,
  removedSays,
  shareOfPairs,
  stepsSay,
  violationsSay,
} from "./fit.js";
import { cycleSentences, meansOf, parseFault, productSentences, sumSentences } from "./reports.js";
import { workSays } from "./runs.js";

// Tables of at most so many observations are answered unasked.
const SMALL_TABLE = 60;
const fitCard = cardsAt("h4");

/** The steps of a cycle of two observations or more, folded. */
function cycleOf(item, table, steps) {
  return item?.cycle?.length > 2 ? [folded("The cycle", listOf(steps(item.cycle, table)))] : [];
}

function violationsCard(item) {
  const names = ["GARP", "WGARP", "WARP", "SARP"];
  const rows = names.map((it) => [it, ...shareOfPairs(item[it.toLowerCase()], item.pairs)]);
  return fitCard(
    "Violations: how often do choices contradict each other?",
    violationsSay(item),
    "",
    tableOf(["axiom", "pairs", "share of pairs"], rows, "pairs that violate each axiom"),
  );
}

function keptCard(item, table) {
  const groups = item.groups.map(({ kind, members, weight }) => [kind, members.join(" "), weight]);
  const evidence = folded(
    "Why no more can stay",
    say(
      "Each group contradicts itself. No two observations of pairs can stay together, and not all of a cycle. The " +
        "weights of the groups bound how many can stay.",
    ),
    tableOf(["group", "observations", "weight"], groups, "groups that contradict themselves"),
  );
  return fitCard(
    "Houtman-Maks index (HM): how many choices can stay?",
    keptSays(item),
    "",
    say(goneSay(item, table)),
    ...(goneOf(item).length ? [evidence] : []),
  );
}

function levelsCard(items, table) {
  const rows = levelRows(items, table);
  const squares = levelsSay(items.squares, "squares");
  const names = ["observation", "level by the mean", "level by squares"];
  const levels = rows.length
    ? [folded(
      "The levels",
      say("The other observations have the level 1: all of their expenditure counts."),
      tableOf(names, rows, "levels below 1"),
    )]
    : [];
  return fitCard(
    "Varian's index (AVI): how much of each expenditure has to be ignored?",
    levelsSay(items.mean, "mean"),
    "",
    say(`By the mean of squares: ${squares.head}. ${squares.says}`),
    ...levels,
  );
}

function stepsCard(item, table) {
  const dropped = item.removed.length
    ? [folded("The dropped preferences", listOf(removedSays(item.removed, table)))]
    : [];
  const title = "Minimum cost index (MCI): which preferences have to be dropped?";
  return fitCard(title, stepsSay(item), "", ...dropped);
}

/**
 * A card for each index. Where each observation has money of its own, what adds money of several is left out.
 */
export function fitCards(items, table, hasOwnMoney = false) {
  const { pump, quasilinear, homothetic } = items;
  const ofMoney = hasOwnMoney ? [] : [
    stepsCard(items.steps, table),
    fitCard(
      "Money pump index (MPI): how much money could a cycle cost?",
      fitPumpSays(pump),
      "",
      ...cycleOf(pump, table, cycleSentences),
    ),
    fitCard(
      "Quasilinear level: how far from a worth in units of money?",
      quasilinearSays(quasilinear),
      "",
      ...cycleOf(quasilinear, table, sumSentences),
    ),
  ];
  return [
    violationsCard(items.violations),
    keptCard(items.kept, table),
    levelsCard(items, table),
    ...ofMoney,
    fitCard(
      "Homothetic level: how far from a homothetic preference?",
      homotheticSays(homothetic),
      "",
      ...cycleOf(homothetic, table, productSentences),
    ),
  ];
}

/** All indices, as papers call them. */
function indexTable(items, hasOwnMoney) {
  const rows = indexRows(items, hasOwnMoney);
  const told = ({ name, ...bounds }) => [name, boundsSay(bounds), bounds.low, bounds.high];
  return make(
    "div",
    { className: "indices" },
    tableOf(["index", "value", "at least", "at most"], rows.map(told), "the indices as papers call them"),
    make("p", {
      className: "note",
      textContent:
        "A decimal beside a fraction is rounded down. If there are two bounds, the lower one is rounded down and the " +
        "upper one up. If the bounds meet, the number after about is rounded to the nearest.",
    }),
    button("Keep the indices as CSV", () => keepFile("indices.csv", indexFile(rows), "text/csv")),
  );
}

/** What is told where there are no indices. */
function noIndices(answer) {
  if (lacksFit(answer)) return LACKS_FIT;
  const fault = parseFault(answer.told);
  return fault ? `${fault.fault}. ${meansOf(fault.fault)}` : answer.told.trim();
}

/** What shows all of an answer of `fit`. */
function fitParts(answer, { client, file }, table, hasOwnMoney, items) {
  const certificate = async () => {
    const { output } = await client.answer(["fit", file.name, "--json"], [file], "rp-wide");
    keepFile("fit.json", output, "application/json");
  };
  const without = hasOwnMoney
    ? [say(
      "Each observation has its own unit of money. The indices that add money of several observations are left out: " +
        "MCI, MPI and the quasilinear level.",
    )]
    : [];
  const report = folded("The report of the indices, as rp-wide prints it", printed(answer.output));
  report.className = "report";
  return [
    ...without,
    indexTable(items, hasOwnMoney),
    make("div", { className: "cards many" }, ...fitCards(items, table, hasOwnMoney)),
    report,
    make("div", { className: "row" }, button("Make a certificate of the indices and keep it", certificate)),
  ];
}

/**
 * The indices of a table: unasked where it is small, else by a button. `fit` has a client of its own, which keeps no
 * other question waiting, and the file; `onItems` takes the indices when they are there.
 */
export function fitSection(fit, table, hasOwnMoney, onItems) {
  const title = "Goodness of fit: how far are these choices from rational ones?";
  const head = make("h3", { textContent: title, tabIndex: -1 });
  const [status, place] = [make("p", { attrs: { role: "status" } }), make("div")];
  /** Shows this. The focus goes on from what it takes away: to a button of its own, or else to the head. */
  const show = (says, parts, next = head) => {
    const hadFocus = place.contains(document.activeElement);
    [status.textContent, status.className] = [says, ""];
    place.replaceChildren(...parts);
    if (hadFocus) next.focus();
  };
  const offer = (says) => {
    const long = table.count > SMALL_TABLE
      ? [say(`With ${table.count} observations this may take some seconds, and with 512 up to minutes.`)]
      : [];
    const compute = button("Compute the indices", ask);
    show(says, [...long, compute], compute);
  };
  const ask = async () => {
    const began = performance.now();
    const says = () => workSays((performance.now() - began) / 1000);
    const stop = button("Stop", () => fit.client.stop());
    show(says(), [stop], stop);
    const clock = setInterval(() => (status.textContent = says()), 5000);
    try {
      const answer = await fit.client.answer(["fit", fit.file.name], [fit.file], "rp-wide");
      if (answer.status !== 0) {
        show(noIndices(answer), []);
        if (!lacksFit(answer)) status.className = "fault";
        return;
      }
      const items = parseFit(answer.output);
      onItems(items);
      const exact = "Each index is exact or has two bounds. Each comes with evidence that the checker accepts.";
      show(exact, fitParts(answer, fit, table, hasOwnMoney, items));
    } catch (error) {
      offer(error instanceof Stopped ? "Stopped." : `No result: ${error.message}.`);
    } finally {
      clearInterval(clock);
    }
  };
  if (table.count > SMALL_TABLE) offer("");
  else ask();
  return make("section", { className: "fit" }, head, status, place);
}
