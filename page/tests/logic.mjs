/**
 * The page's logic without a browser: faults, words of verdicts, reports, sheets, panels and questions. Run by
 * tools/check/page-logic, which puts the page's modules beside this file as the build makes them.
 */
import assert from "node:assert/strict";
import { readFileSync } from "node:fs";
import { test } from "node:test";
import { boundOf } from "./answers.js";
import { atThresholds, drawBehaviours, shareInWords } from "./benchmark.js";
import { checkInWords } from "./claims.js";
import { Stopped } from "./client.js";
import { wordsOf } from "./command.js";
import { drawAnew } from "./dom.js";
import { amountsOf, behaviour, drawnFile, words } from "./draws.js";
import { commands, facts, limit, range, sentenceOf, unitsBy } from "./facts.js";
import {
  FIT_COLUMNS,
  LACKS_FIT,
  boundsSay,
  fitFields,
  fitPumpSays,
  goneOf,
  goneSay,
  homotheticSays,
  indexRecords,
  indexRows,
  keptSays,
  lacksFit,
  levelRows,
  levelsSay,
  meanLoss,
  parseFit,
  quasilinearSays,
  removedSays,
  rounded,
  shareOfPairs,
  stepsSay,
  violationsSay,
} from "./fit.js";
import { fitSection } from "./fit_cards.js";
import { boundRows } from "./panel_questions.js";
import { equalUtility, keyPlaces, utilityOf } from "./pictures.js";
import { checkedBy, nameBeside, withLevel } from "./questions.js";
import {
  Purchases,
  about,
  asNumber,
  countsMean,
  cycleSentences,
  decimal,
  decimalOf,
  inUnits,
  isAtLeast,
  meansOf,
  numbersIn,
  offered,
  offeredSays,
  parseFault,
  parseReport,
  productSentences,
  sumSentences,
  walkInWords,
} from "./reports.js";
import { COLUMNS, panelWords, rowAt, rowsOf, tableRecords } from "./rows.js";
import { load } from "./rp.js";
import { Runs, workSays } from "./runs.js";
import {
  WIDE,
  costSays,
  demandBounds,
  demandSays,
  firmSays,
  patchesIn,
  populationSays,
  pumpSays,
  typesIn,
  utilitySays,
  welfareBounds,
  welfareSays,
} from "./says.js";
import { sentence, sentences } from "./sentences.js";
import {
  Mapping,
  Sheet,
  bytesOf,
  fitOf,
  forSpreadsheet,
  lacksOf,
  longFiles,
  numbersRecords,
  otherThanText,
  parseRecords,
  placeInFile,
  placeInWords,
  raggedRecord,
  splitHouseholds,
  writeRecords,
} from "./sheets.js";

const CONTRADICTION = "p_bread,q_bread,p_wine,q_wine\n1,1,2,2\n2,2,1,1\n";
const REPORT =
  "observations 2 goods 2 places 0 0\ngarp violated\ncycle 1 2 1\nafriat none\ncycle 1 2 1\n" +
  "efficiency 4/5 attained yes\nbelow 1 1\nabove 1 2 1\nat ranks 2 2\nhomothetic violated\nstart 1\ncycle 1 2 1\n" +
  "quasilinear violated\ncycle 1 2 1\n";

test("what choices spent of the offered budgets", () => {
  // From x + y <= 10, by hand: (5, 5) spends all, (3, 4) 7/10, which halves of a unit make no whole, and (5, 4) 9/10.
  const table = (...rows) => new Purchases([["p_x", "p_y", "q_x", "q_y"], ...rows.map((it) => ["10", "10", ...it])]);
  const found = offered(table(["5", "5"], ["3", "4"], ["5", "4"]));
  assert.equal(found.below.map((it) => it.at).join(), "1");
  assert.equal(found.least.at, 1);
  assert.ok(found.least.share[0] * 10n === found.least.share[1] * 7n);
  assert.equal(offered(table(["5.0", "5.0"], ["3.0", "4.0"], ["5.0", "4.0"])).below.map((it) => it.at).join(), "1,2");
  assert.match(offeredSays(table(["5", "5"], ["9", "9"])).head, /^Observation 2 .*choice 9 and 9\) costs 1\.8000 of/);
  assert.equal(offeredSays(table(["5", "6"])).head, undefined);
  assert.match(offeredSays(table(["5.0", "6.0"])).head, /costs 1\.1000 of/);
  assert.match(offeredSays(table(["5", "5"])).says, /all 1 choices lie on their lines/);
});

test("what a checked certificate proves, item by item", () => {
  const items = [
    { item: "garp", cycle: [1, 2, 1] },
    { item: "efficiency", level: "4/5", at_ranks: [0, 1], below: [0, 1], above: [] },
    { item: "homothetic", withheld: [3, 1, 2] },
    {
      item: "demand",
      prices: ["2", "1"],
      expenditure: "6",
      goods: [{ lower: { withheld: 2 }, upper: { value: "7/2" } }, { lower: { value: "0" }, upper: { value: "3" } }],
    },
  ];
  const text = JSON.stringify({ items, kind: "table", version: 1 });
  assert.deepEqual(checkInWords("accepted items 4 withheld 2\n", text), [
    "Item 1: GARP is violated: proved.",
    "Item 2: the CCEI is 4/5 (0.8), attained: proved.",
    "Item 3: homothetic: withheld: nothing is proved.",
    "Item 4: bounds of demand at prices 2, 1 and expenditure 6: withheld to 7/2; 0 to 3, in scaled units, but for " +
      "those that it withholds: proved.",
  ]);
  const rejected = checkInWords("rejected item 2 Shape place 0\n", text);
  assert.equal(rejected[0], "Item 2 claims: the CCEI is 4/5 (0.8), attained.");
  assert.equal(rejected[1], sentenceOf("reason", "Shape"));
  assert.match(rejected[2], /^Item 2 is the first .* proves nothing/);
  const order = checkInWords("rejected item 2 Order place 1\n", text);
  assert.equal(order[1], `Place 1 of item 2: ${sentenceOf("reason", "Order")}`);
  assert.match(checkInWords("rejected item 0 Levels place 1\n", text)[1], /^The certificate as a whole does not prove/);
  // With levels the axiom is proved at these, and the share and the bounds stand in the certificate.
  const accepted = (items, ownMoney = false, more = {}) =>
    checkInWords(`accepted items ${items.length} withheld 0\n`, JSON.stringify({ items, ...more }), ownMoney);
  const leveled = [{ item: "garp", ranks: [1, 2] }, { item: "afriat", cycle: [1, 1] }];
  assert.deepEqual(accepted(leveled, false, { levels: [799, 1000] }), [
    "Item 1: GARP holds at the levels 0.799, 1: proved.",
    "Item 2: there are no Afriat numbers at the levels 0.799, 1: proved.",
  ]);
  const parts = [[[1, 4], "1"], [[2, 3], "2"]];
  const [share] = accepted([{ den: "1", item: "random", parts, total: "4", weights: ["1", "0", "1", "0"] }]);
  assert.match(share, /makes these choices; the maximum share is 3\/4 [(]0[.]75[)]: proved[.]$/);
  const bounds = { lower: { value: "4" }, upper: "6", at: 1 };
  const [welfare] = accepted([{ item: "welfare", observation: 2, prices: ["2", "2"], ...bounds }]);
  assert.match(welfare, /of observation 2 at prices 2, 2: 4 to 6, in scaled units: proved/);
  // Where intercepts are exchanged for prices, the quasilinear item is about these.
  const sums = [{ item: "quasilinear", values: ["0", "0"] }];
  assert.match(accepted(sums, true)[0], /which says nothing about the data: proved/);
  assert.equal(accepted(sums)[0], "Item 1: the quasilinear test holds: proved.");
  // A rejected certificate may have anything in it.
  const wrong = { item: "random", weights: [], parts: [1], den: "0", total: "x" };
  const broken = checkInWords("rejected item 1 Number place 1\n", JSON.stringify({ items: [wrong] }));
  assert.match(broken.at(-1), /may be true or false/);
  const none = checkInWords("accepted items 0 withheld 0\n", '{"items":[]}');
  assert.deepEqual(none, ["It has no items, so nothing is proved."]);
});

test("each fault and each reason has the words of the catalogue, without options of commands", () => {
  for (const name of [...facts().faults.map((it) => it.name), "NoId", "LongId"]) {
    assert.match(meansOf(name), /^[A-Z][^]*[.]$/, name);
    assert.doesNotMatch(meansOf(name), /--(?:per|id)/, name);
  }
  for (const reason of facts().reasons) assert.match(sentenceOf("reason", reason), /^[A-Z][^]*[.]$/, reason);
  const { wrong } = facts().hints.find((it) => it.code === "ZeroPrice");
  assert.ok(meansOf("ZeroPrice").startsWith(wrong));
});

test("columns i_NAME are the intercepts of budget lines, as the clients have them", () => {
  const mapping = Mapping.suggested(["subject", "i_x", "i_y", "q_x", "q_y"], [["subject"], ["1"], ["1"]]);
  assert.deepEqual(mapping.roles.map((it) => it.role), ["household", "most", "most", "same", "same"]);
  assert.ok(mapping.hasOwnMoney);
  // Beside prices they are none.
  const beside = Mapping.suggested(["i_x", "p_x", "q_x"]);
  assert.deepEqual(beside.roles.map((it) => it.role), ["out", "same", "same"]);
});

test("units are called by the name of their column", () => {
  const names = ["subject", "Subject_ID", " hh ", "town", "firm no"];
  assert.deepEqual(names.map(unitsBy), ["subjects", "subjects", "households", "units", "firms"]);
});

test("each line of a fault is read with its places", () => {
  for (const { name, places } of facts().faults) {
    for (const own of places) {
      const told = [name, ...own.map((it, at) => `${it} ${at + 2}`)].join(" ");
      const found = parseFault(`rp: t.csv: ${told}\n`);
      assert.equal(found.fault, name);
      assert.equal(found.file, "t.csv");
      assert.equal(found.record, own.includes("record") ? own.indexOf("record") + 2 : 0);
      assert.equal(found.column, own.includes("column") ? own.indexOf("column") + 2 : 0);
      assert.equal(found.means, meansOf(name));
      assert.equal(parseFault(`rp: ${told}\n`).file, "");
    }
  }
  // What the program adds to its line is no part of it.
  const more = parseFault("rp-wide: t.csv: ZeroPrice record 1 column 2\nhint: This price is 0.\nnote: more\n");
  assert.deepEqual([more.file, more.fault, more.record, more.column], ["t.csv", "ZeroPrice", 1, 2]);
  assert.equal(parseFault("usage: rp pairs TABLE\n"), null);
  assert.equal(parseFault("rp: t.csv: read failed\n"), null);
});

// What verdicts are of tables with levels of the observations' own, and which of shares that may be shared out by
// units.
const [OF_LEVELS, OF_UNITS] = [["garp", "afriat", "homothetic", "quasilinear"], ["random", "menus"]];

test("each word of a verdict in the catalogue has one sentence, also with levels and with units", () => {
  for (const [item, own] of Object.entries(facts().verdicts)) {
    for (const verdict of own) {
      for (const on of [false, true]) {
        const holds = OF_LEVELS.includes(item) ? { levels: on } : OF_UNITS.includes(item) ? { apportioned: on } : {};
        const values = { share: "3/4", about: "", units: "10" };
        const found = sentence(item, verdict, holds, values);
        assert.match(found.head, /^[A-Z]/);
        assert.match(found.says, /^[A-Z][^]*[.]$/);
      }
    }
    const told = sentences().filter((it) => it.item === item && it.verdict !== "bounds").map((it) => it.verdict);
    assert.deepEqual([...new Set(told)].sort(), [...own].sort());
  }
});

test("with levels no sentence on the axiom speaks of all that was spent, and the others say that they do", () => {
  const pair = (item, verdict, values) => [false, true].map((levels) => sentence(item, verdict, { levels, ...values }));
  for (const [item, verdict] of [["garp", "holds"], ["garp", "violated"], ["afriat", "model"], ["afriat", "none"]]) {
    const [plain, held] = pair(item, verdict);
    assert.notEqual(plain.says, held.says);
    assert.match(held.says, /level|expenditure that counts/);
    assert.doesNotMatch(plain.says, /level/);
  }
  const own = sentence("homothetic", "holds", { levels: true }).says;
  assert.match(own, /This result does not use the efficiency levels/);
});

test("an index of 1 is told apart by whether it is attained", () => {
  assert.deepEqual(
    [["1", "yes"], ["1", "no"], ["4/5", "yes"], ["4/5", "no"]].map(([index, attained]) => boundOf(index, attained)),
    ["1, attained", "1, not attained", "below 1, attained", "below 1, not attained"],
  );
  const of = (bound) => sentence("efficiency", "index", { levels: false, bound }, { index: "4/5", about: " (0.8)" });
  assert.equal(of("1, attained").head, "1: all of the expenditure counts");
  assert.match(of("1, not attained").says, /If all of it counts, no consumer/);
  assert.equal(of("below 1, attained").head, "4/5 (0.8)");
  assert.match(of("below 1, not attained").says, /any part below 4\/5 .* If 4\/5 or more counts, no consumer/);
});

test("of shares in units the sentence speaks of the rounded ones", () => {
  const exact = "budgets 2 patches 4 types 3 total 4\nrandom mixture over 4\npart 1 3 weight 4\n";
  const units = "budgets 2 patches 4 types 3 total 10\napportioned per 10\nrandom mixture over 10\npart 1 3 weight " +
    "10\n";
  assert.match(populationSays(exact, "random").head, /^Yes: a population could have made these choices$/);
  assert.equal(populationSays(units, "random").head, "Yes, for the rounded shares");
  assert.match(populationSays(units, "random").says, /the rounded shares\. Shares are rounded to 10 units/);
  assert.match(populationSays(units, "random").says, /says nothing about the shares before rounding/);
  for (const it of [exact, units]) assert.match(populationSays(it, "random").says, /sampling error is not modelled/);
  const violated = "budgets 2 patches 4 types 3 total 10\napportioned per 10\nrandom violated share 3/4\n" +
    "weights 1 0 1 0 over 1\npart 1 4 weight 1\n";
  assert.match(
    populationSays(violated, "random").says,
    /^No population .* made the rounded shares\. Shares are rounded to 10 units on each budget\. A population/,
  );
});

test("what was asked of one input shows nothing once another run has begun", () => {
  const runs = new Runs();
  const first = runs.begin();
  assert.ok(first.isCurrent());
  const second = runs.begin();
  assert.deepEqual([first.isCurrent(), second.isCurrent()], [false, true]);
});

test("work that takes long says so, and how to end it", () => {
  assert.equal(workSays(0.2), "Working. Stop ends it.");
  assert.equal(workSays(65), "Working for 65 s. Stop ends it.");
});

test("the results take the focus once, where a button asked for the run", () => {
  const runs = new Runs();
  const dropped = runs.begin();
  assert.ok(!dropped.takesFocus());
  const pressed = runs.begin();
  pressed.press();
  assert.deepEqual([pressed.takesFocus(), pressed.takesFocus()], [true, false]);
  pressed.press();
  runs.begin();
  assert.ok(!pressed.takesFocus());
  assert.match(readFileSync(new URL("index.html", import.meta.url), "utf8"), /<h2 id="answers-head" tabindex="-1">/);
});

/** An element with fields, of which one may have the focus; `replaceChildren` puts these fields in their place. */
function placeOf(fields, state) {
  return {
    querySelectorAll: () => fields.list,
    replaceChildren: (...list) => {
      if (fields.list.includes(state.activeElement)) state.activeElement = null;
      fields.list = list;
    },
  };
}

test("a field that is drawn anew has the focus again, and no other one takes it", () => {
  const state = { activeElement: null };
  const field = (tagName, type) => {
    const it = { tagName, type, focus: () => (state.activeElement = it) };
    return it;
  };
  globalThis.document = state;
  const fields = { list: [field("INPUT", "checkbox"), field("SELECT", "select-one")] };
  const place = placeOf(fields, state);
  fields.list[1].focus();
  drawAnew(place, field("INPUT", "checkbox"), field("SELECT", "select-one"), field("BUTTON", "button"));
  assert.equal(state.activeElement, fields.list[1]);
  drawAnew(place, field("SUMMARY"), field("SUMMARY"));
  assert.equal(state.activeElement, null);
  const outside = field("BUTTON", "button");
  outside.focus();
  drawAnew(place, field("BUTTON", "button"));
  assert.equal(state.activeElement, outside);
  delete globalThis.document;
});

test("limits and ranges are those of the catalogue", () => {
  assert.deepEqual(range("power", "N"), [1, 1000]);
  assert.deepEqual(range("random", "--per"), [1, 1_000_000_000]);
  assert.deepEqual(range("power", "SEED"), [0, "18446744073709551615"]);
  assert.equal(limit("table.largest"), 9_999_999);
  assert.equal(commands().length, facts().commands.length);
});

test("a report is read by its items", () => {
  const { size, items } = parseReport(REPORT);
  assert.deepEqual(size, { observations: 2, goods: 2, prices: 0, quantities: 0 });
  assert.equal(items.garp.verdict, "violated");
  assert.deepEqual(numbersIn(items.garp.cycle), [1, 2, 1]);
  assert.equal(items.efficiency.verdict, "4/5 attained yes");
  assert.equal(items.efficiency["at ranks"], "2 2");
  assert.equal(items.homothetic.start, "1");
  assert.deepEqual(
    parseReport("observations 2 goods 2 places 0 0\nlevels 799 1000\ngarp holds\nranks 1 2\n").levels,
    [799, 1000],
  );
});

test("fractions, decimals and units", () => {
  assert.equal(asNumber("4/5"), 0.8);
  assert.equal(asNumber("1"), 1);
  assert.equal(decimal(-1250n, 2), "−12.5");
  assert.equal(decimal(5n, 3), "0.005");
  assert.equal(inUnits("124250/381", 2), "2485/762");
  assert.equal(inUnits("300", 2), "3");
  assert.deepEqual(numbersIn("none"), []);
  assert.deepEqual(["4/5", "1", "1958051/1962469"].map(about), [" (0.8)", "", " (about 0.9977)"]);
  // rounded down, so that what is below 1 reads below 1
  assert.equal(decimalOf("999999999/1000000000", 6), "0.999999");
});

test("what bundles cost, and the steps of a cycle in words", () => {
  const table = new Purchases(parseRecords(CONTRADICTION, ","));
  assert.deepEqual([table.cost(0, 0), table.cost(0, 1), table.cost(1, 0), table.cost(1, 1)], [5n, 4n, 4n, 5n]);
  assert.deepEqual(cycleSentences([1, 2, 1], table), [
    "In observation 1 the chosen bundle cost 5. The bundle of observation 2 would have cost 4.",
    "In observation 2 the chosen bundle cost 5. The bundle of observation 1 would have cost 4.",
  ]);
  const held = new Purchases(parseRecords("p_a,q_a,p_b,q_b,e\n1,1,2,2,800\n2,2,1,1,1000\n", ","));
  assert.deepEqual(cycleSentences([1, 2, 1], held), [
    "In observation 1 the chosen bundle cost 5, of which 4 counts. The bundle of observation 2 would have cost 4.",
    "In observation 2 the chosen bundle cost 5, of which 5 counts. The bundle of observation 1 would have cost 4.",
  ]);
  assert.equal(walkInWords([1, 2, 1]), "from observation 1 to 2, and back to 1");
  assert.equal(walkInWords([3, 1, 2, 3]), "from observation 3 to 1 and 2, and back to 3");
  assert.deepEqual(productSentences([1, 2, 1], table), [
    "At the prices of observation 1, the bundle of observation 2 costs 4 and the chosen bundle 5: the ratio is " +
      "4/5 (0.8).",
    "At the prices of observation 2, the bundle of observation 1 costs 4 and the chosen bundle 5: the ratio is " +
      "4/5 (0.8).",
    "The product of the ratios along the cycle is 16/25 (0.64). With homothetic preferences, no cycle has a product " +
      "below 1.",
  ]);
  assert.deepEqual(sumSentences([1, 2, 1], table).slice(0, 2), [
    "At the prices of observation 1, the bundle of observation 2 costs 1 less than the chosen bundle.",
    "At the prices of observation 2, the bundle of observation 1 costs 1 less than the chosen bundle.",
  ]);
  assert.match(sumSentences([1, 2, 1], table)[2], /^The sum of the differences along the cycle is −2\./);
  const fine = new Purchases(parseRecords("obs,p_a,q_a\nx,1.25,0.5\ny,2,1\n", ","));
  assert.equal(fine.money(fine.cost(0, 0)), "0.625");
  assert.deepEqual(fine.labels, ["x", "y"]);
});

test("a curve of equal utility with levels counts the part that they name", () => {
  const table = new Purchases(parseRecords("p_a,q_a,p_b,q_b,e\n1,1,2,2,800\n2,2,1,1,1000\n", ","));
  const model = { utility: [0, -1000], lambda: [1, 2] };
  // at the bundle of 1: 0 + 1 (1000 * 5 - 800 * 5) = 1000, and -1000 + 2 (1000 * 4 - 1000 * 5) = -3000
  assert.equal(utilityOf(table, model, 0), -3000);
  // the bundles of utility -3000 cost at least (4000 - 3000) / 1000 at the prices of 1, and 4 at those of 2
  const curve = equalUtility(table, model, -3000, 4, 2);
  assert.deepEqual(curve, [[0, 4], [2, 0], [4, -1.5]]);
  assert.equal(table.unit, "in units of 0.001 of money");
  assert.equal(new TextDecoder().decode(withLevel(bytesOf("p_a,q_a\n1,2\n"), 950)), "p_a,q_a,e\n1,2,950\n");
});

test("what is found in files, and the change that is offered", () => {
  const keys = (bytes) => new Sheet("t.csv", bytes).findings().map((it) => it.key);
  assert.deepEqual(keys(bytesOf(CONTRADICTION)), []);
  assert.deepEqual(keys(bytesOf("p_a;q_a\n1,5;2\n")), ["separator", "decimals"]);
  assert.deepEqual(keys(bytesOf('p_a,q_a\n"1,500",2\n')), ["decimals", "thousands"]);
  assert.deepEqual(keys(bytesOf("\ufeffp_a,q_a\n1,2\n")), ["mark"]);
  assert.deepEqual(keys(bytesOf("obs,p_a,q_a\n2024-01-31,1,2\n")), ["dates"]);
  assert.deepEqual(keys(Uint8Array.of(0xff, 0xfe, 0x61, 0)), ["coding"]);
  const sheet = new Sheet("t.csv", bytesOf("p_a;q_a\n1,5;2\n"));
  assert.equal(new TextDecoder().decode(sheet.bytesFor(null)), "p_a;q_a\n1,5;2\n");
  for (const it of ["separator", "decimals"]) sheet.toggle(it, true);
  assert.equal(new TextDecoder().decode(sheet.bytesFor(null)), "p_a,q_a\n1.5,2\n");
});

test("a fault of a file names what is not ticked, and an empty cell", () => {
  const sheet = new Sheet("a.csv", bytesOf("p_a;q_a\n1,5;2\n"));
  assert.match(sheet.advice("x"), /^2 changes that are offered for this file are not ticked\./);
  sheet.toggle("decimals", true);
  assert.equal(
    sheet.advice("x"),
    "A change that is offered for this file is not ticked: write commas between the fields. Tick it, and run again.",
  );
  sheet.toggle("separator", true);
  assert.equal(sheet.advice("x"), "x");
  const doubtful = new Sheet("b.csv", bytesOf("p_a;q_a\n1,500;2\n"));
  for (const it of ["separator", "thousands"]) doubtful.toggle(it, true);
  assert.equal(doubtful.advice("x"), "x");
  const empty = { record: 1, column: 2, name: "q_a", cell: " " };
  assert.match(meansOf("BadNumber", empty), /^The cell is empty/);
  assert.doesNotMatch(meansOf("BadNumber", { ...empty, cell: "x" }), /is empty/);
});

test("choices with shares, or without the column n, say what to do", () => {
  const means = (text, fault) => {
    const sheet = new Sheet("choices.csv", bytesOf(text));
    return countsMean(fault.fault, placeInFile(fault, sheet.records, null), sheet.header);
  };
  const shares = /If you have shares, multiply them by 1000, or by another power of 10, and round them[.]/;
  const whole = means("budget,q_a,n\n1,2,0.25\n", { fault: "BadNumber", record: 1, column: 3 });
  assert.match(whole, /^This is a count, so it is an integer[.]/);
  assert.match(whole, shares);
  for (const name of ["share", "Share", "count", "freq", "weights"]) {
    const other = means(`budget,q_a,${name}\n1,2,0.25\n`, { fault: "BadHeader", record: 0, column: 3 });
    assert.ok(other.startsWith(`The column ${name} is not read. Name it n if its integers`), other);
    assert.match(other, shares);
  }
  const missing = means("budget,q_a\n1,2\n", { fault: "Unpaired", record: 0, column: 0 });
  assert.match(missing, /^The column n is missing/);
  // Other faults have the words of the catalogue.
  assert.equal(means("budget,q_a,n\n1,0.25,1\n", { fault: "BadNumber", record: 1, column: 2 }), "");
  assert.equal(means("budget,q_a,n\n1,2,x\n", { fault: "BadNumber", record: 1, column: 3 }), "");
  assert.equal(means("budget,q_a,n,share\n1,2,1,1\n", { fault: "BadHeader", record: 0, column: 4 }), "");
  assert.equal(means("budget,q_a,age\n1,2,1\n", { fault: "BadHeader", record: 0, column: 3 }), "");
});

test("semicolons with 0,5 and 1.234 in one file are asked about", () => {
  const german = () => new Sheet("t.csv", bytesOf("p_a;q_a\n0,5;1.234\n2;3\n"));
  assert.deepEqual(
    german().findings().map((it) => it.key),
    ["separator", "decimals", "points as decimals", "points as thousands"],
  );
  const taken = (...keys) => {
    const sheet = german();
    for (const it of ["separator", "decimals", ...keys]) sheet.toggle(it, true);
    return [sheet.lacks(), new TextDecoder().decode(sheet.bytesFor(null))];
  };
  assert.match(taken()[0], /Say what the point/);
  assert.deepEqual(taken("points as thousands"), ["", "p_a,q_a\n0.5,1234\n2,3\n"]);
  assert.deepEqual(taken("points as decimals"), ["", "p_a,q_a\n0.5,1.234\n2,3\n"]);
  assert.deepEqual(taken("points as decimals", "points as thousands"), taken("points as thousands"));
  const mixed = new Sheet("t.csv", bytesOf("p_a;q_a\n0,5;1.234,5\n2;1.25\n"));
  assert.deepEqual(mixed.findings().map((it) => it.key), ["separator", "decimals", "points as decimals"]);
});

test("a workbook and a PDF are told to be no text", () => {
  assert.match(otherThanText(Uint8Array.of(0x50, 0x4b, 3, 4, 20)), /workbook.*save the sheet as CSV/);
  assert.match(otherThanText(Uint8Array.of(0xd0, 0xcf, 0x11, 0xe0)), /workbook/);
  assert.match(otherThanText(bytesOf("%PDF-1.7")), /PDF/);
  assert.equal(otherThanText(bytesOf("p_a,q_a\n")), "");
  for (const it of ["", "\n", "\r\n \t\n", "\ufeff", "\ufeff\n"]) assert.match(otherThanText(bytesOf(it)), /is empty/);
  const certificate = '{"items":[{"item":"garp","ranks":[0,0]}],"kind":"table","version":1}\n';
  assert.match(otherThanText(bytesOf(certificate)), /certificate, not a table.*Check a certificate/);
  assert.match(otherThanText(bytesOf(' {"p_a": [1]}')), /JSON, not a table/);
});

test("records with quotes are read and written back", () => {
  const records = parseRecords('a,b\n"x, ""y""",2\n', ",");
  assert.deepEqual(records, [["a", "b"], ['x, "y"', "2"]]);
  assert.equal(writeRecords(records), 'a,b\n"x, ""y""",2\n');
});

test("columns of other names are assigned, and what lacks is said", () => {
  const mapping = Mapping.suggested(["id", "price_bread", "x1", "obs", "note"]);
  assert.deepEqual(mapping.roles.map((it) => it.role), ["household", "price", "quantity", "same", "out"]);
  assert.equal(
    lacksOf(mapping, ["id", "price_bread", "x1", "obs", "note"]),
    "The good bread has a price and no quantity.",
  );
  const read = Mapping.read(mapping.write(["id", "price_bread", "x1", "obs", "note"]), ["id", "other"]);
  assert.deepEqual(read.roles.map((it) => it.role), ["household", "out"]);
});

test("a column id that numbers the records is asked about, and not taken for households", () => {
  const header = ["id", "p_a", "q_a"];
  const numbered = parseRecords("id,p_a,q_a\n1,1,2\n2,3,4\n", ",");
  const mapping = Mapping.suggested(header, numbered);
  assert.deepEqual([mapping.roles[0].role, mapping.household], ["open", -1]);
  assert.match(lacksOf(mapping, header), /^Each value of the column id is in one row\./);
  assert.ok(numbersRecords(numbered, 0));
  const twice = parseRecords("id,p_a,q_a\n1,1,2\n1,3,4\n", ",");
  assert.equal(Mapping.suggested(header, twice).household, 0);
  assert.equal(lacksOf(Mapping.suggested(header, twice), header), "");
});

test("x_max is no quantity by guess, and intercepts are exchanged where the columns say so", () => {
  const header = ["subject", "round", "x_max", "y_max", "x", "y"];
  const records = parseRecords("subject,round,x_max,y_max,x,y\n1,1,40,80,10,60\n1,2,90,60,30,40\n", ",");
  const mapping = Mapping.suggested(header, records);
  assert.deepEqual(mapping.roles.map((it) => it.role), ["household", "label", "most", "most", "quantity", "quantity"]);
  assert.ok(mapping.hasOwnMoney);
  assert.equal(lacksOf(mapping, header), "");
  // the price of x is the intercept of y, and the other way round
  assert.deepEqual(mapping.apply(records), [
    ["obs", "p_x", "p_y", "q_x", "q_y"],
    ["1", "80", "40", "10", "60"],
    ["2", "60", "90", "30", "40"],
  ]);
  const alone = Mapping.suggested(["x_max", "p_a", "q_a"], []);
  assert.deepEqual(alone.roles.map((it) => it.role), ["out", "same", "same"]);
  const named = Mapping.suggested(["max_x", "max_y", "q_x", "q_y"], []);
  assert.deepEqual(named.roles.map((it) => it.role), ["most", "most", "same", "same"]);
  assert.equal(lacksOf(named, ["max_x", "max_y", "q_x", "q_y"]), "");
});

test("a fault of a household is told at its place in the file", () => {
  const records = parseRecords("note,id,p_a,q_a\n,v,1,2\n,u,3,4\n,v,5,x6\n", ",");
  const mapping = Mapping.suggested(["note", "id", "p_a", "q_a"], records);
  const [v] = splitHouseholds(records, mapping);
  assert.deepEqual(v.numbers, [1, 3]);
  const fault = parseFault("rp: table.csv: BadNumber record 2 column 2\n");
  assert.equal(placeInWords(placeInFile(fault, records, mapping, v.numbers)), ' at record 3, column 4 (q_a): "x6"');
  const [file] = longFiles(records, mapping, splitHouseholds(records, mapping));
  assert.equal(new TextDecoder().decode(file.bytes), "household,p_a,q_a\nv,1,2\nv,5,x6\nu,3,4\n");
  const [own] = rowsOf(`${HEAD}v,,,,,,,,,,,,BadNumber,2,3\nu,1,1,holds,1,1.000000,yes,holds,holds,,,,,,\n`, file);
  const row = rowAt(own, file.numbers, ({ record, column }) =>
    placeInFile({ record, column: column - 1 }, records, mapping));
  assert.deepEqual([row.record, row.column], ["3", "4"]);
  assert.match(row.told, /^BadNumber at record 3, column 4 \(q_a\): "x6"\. This field is not a number/);
  assert.equal(placeInWords(placeInFile(parseFault("rp: t.csv: NoRecords\n"), records, null)), "");
});

test("a file that is dropped beside the places goes to the one that it fits", () => {
  const kind = (name) => facts().kinds.find((it) => it.name === name);
  const [budgets, choices] = [["p_a", "p_b", "w"], ["budget", "q_a", "q_b", "n"]];
  assert.ok(fitOf(budgets, kind("budgets")) > fitOf(budgets, kind("choices")));
  assert.ok(fitOf(choices, kind("choices")) > fitOf(choices, kind("budgets")));
});

test("what is typed beside a file has another name than the file", () => {
  assert.equal(nameBeside("new prices", "t.csv"), "new prices");
  assert.equal(nameBeside("new prices", "new prices"), "the new prices");
  assert.equal(nameBeside("bundles", "bundles", "the bundles"), "the the bundles");
});

test("a panel is split by household, in the order of first appearance", () => {
  const records = parseRecords("id,p_a,q_a\nv,1,2\nu,3,4\nv,5,6\n", ",");
  const parts = splitHouseholds(records, Mapping.suggested(["id", "p_a", "q_a"]));
  assert.deepEqual(parts.map((it) => it.household), ["v", "u"]);
  assert.equal(new TextDecoder().decode(parts[0].bytes), "p_a,q_a\n1,2\n5,6\n");
});

const HEAD = `${COLUMNS.join()}\n`;
const nowhere = () => ({ record: 0, column: 0, name: "", cell: "" });

test("a record of another length refuses the file, and is never shifted", () => {
  const records = parseRecords("note,id,p_a,q_a\n,v,1,2\n,v,3\n", ",");
  assert.deepEqual(raggedRecord(records), { record: 2, fields: 3, names: 4 });
  assert.equal(raggedRecord(records.slice(0, 2)), null);
  // of a table whose first column is left out, a record that is short by one has not the length of the others
  const table = parseRecords("note,p_a,q_a,p_b,q_b\n,1,2,3,4\n5,6,7,8\n", ",");
  const changed = Mapping.suggested(table[0], table).apply(table);
  assert.deepEqual(changed.map((it) => it.length), [4, 4, 5]);
});

test("ids are without the blanks round them, and records without one are none's", () => {
  const text = 'id,p_a,q_a\nA,1,2\n"A ",2,1\n,1,1\n" \t",1,1\n"x\ry",1,1\nA,2,2\n"x\ry",2,2\n';
  const records = parseRecords(text, ",");
  const mapping = Mapping.suggested(["id", "p_a", "q_a"], records);
  const households = splitHouseholds(records, mapping);
  assert.deepEqual(households.map((it) => [it.household, it.numbers]), [["A", [1, 2, 6]], ["x\ry", [5, 7]]]);
  const files = longFiles(records, mapping, households);
  const told = files.map((it) => [it.households, it.unnamed, it.numbers]);
  assert.deepEqual(told, [[["A", "x\ry"], 0, [1, 2, 6, 5, 7]], [[], 2, [3, 4]]]);
  const written = 'household,p_a,q_a\nA,1,2\nA ,2,1\nA,2,2\n"x\ry",1,1\n"x\ry",2,2\n';
  assert.equal(new TextDecoder().decode(files[0].bytes), written);
  const [row] = rowsOf(`${HEAD},,,,,,,,,,,,NoId,1,\n,,,,,,,,,,,,NoId,2,\n`, files[1]).map((it) =>
    rowAt(it, files[1].numbers, nowhere));
  assert.deepEqual([row.household, row.record], ["", "3"]);
  assert.match(row.told, /^NoId\. This row has an empty id/);
});

test("the rows of households: their verdicts, or a fault; and what is no table of theirs is no answer", () => {
  const asked = { households: ["u", "v"], unnamed: 0 };
  const good = ["u,2,2,violated,4/5,0.800000,yes,violated,violated,,,,,,\n", "v,,,,,,,,,,,,ZeroPrice,2,3\n"];
  const [u, v] = rowsOf(HEAD + good.join(""), asked).map((it) => rowAt(it, [7, 9], nowhere));
  assert.deepEqual([u.garp, u.efficiency, u.efficiency_floor], ["violated", "4/5", "0.800000"]);
  assert.deepEqual([u.attained, u.told], ["yes", ""]);
  assert.deepEqual([v.garp, v.record, v.told], ["", "9", `ZeroPrice. ${meansOf("ZeroPrice")}`]);
  const wrong = ["", "usage\n", HEAD, HEAD + good[0], HEAD + good.join("") + good[1], good.join("")];
  wrong.push(HEAD + good[1] + good[0]);
  wrong.push(`${HEAD}${good[0]}v,,,,,,,,,,,,,,\n`, `${HEAD}${good[0]}v,1,2,maybe,1,1.000000,yes,holds,holds,,,,,,\n`);
  for (const output of wrong) assert.throws(() => rowsOf(output, asked), /gave no table of these units/);
});

test("the power of each household is a column of the same call, where it is asked", () => {
  const [asked, power] = [{ households: ["u", "v"], unnamed: 0 }, { draws: 200, seed: "18446744073709551615" }];
  const wanted = ["long.csv", "--id", "household", "--power", "200", "18446744073709551615", "--wide"];
  assert.deepEqual(panelWords(power), wanted);
  const output = (told) =>
    `${HEAD}u,2,2,violated,4/5,0.800000,yes,violated,violated,,,${told},,,\nv,,,,,,,,,,,,ZeroPrice,2,3\n`;
  const [u, v] = rowsOf(output("14/200"), asked, power);
  assert.deepEqual([u.power, v.power], ["14/200", ""]);
  for (const told of ["", "14/100", "14", "7/100"]) {
    assert.throws(() => rowsOf(output(told), asked, power), /gave no table of these units/);
  }
  assert.throws(() => rowsOf(output("14/200"), asked), /gave no table of these units/);
});

test("a spreadsheet takes no id for a formula", () => {
  const ids = ["=1+1", "+a", "-a", "@a", "a=b", ""];
  assert.deepEqual(ids.map(forSpreadsheet), ["'=1+1", "'+a", "'-a", "'@a", "a=b", ""]);
  const row = { ...Object.fromEntries(COLUMNS.map((it) => [it, ""])), household: "=A", told: "no column" };
  assert.deepEqual(tableRecords([row])[1], ["'=A", ...Array(14).fill("")]);
});

test("the words of a seed and the drawn behaviours are those of the clients", () => {
  const told = JSON.parse(readFileSync(new URL("behaviours.json", import.meta.url), "utf8"));
  for (const { seed, words: wanted } of told.words) {
    const word = words(seed);
    assert.deepEqual(wanted.map(() => word()), wanted);
  }
  for (const { seed, prices, quantities, behaviours } of told.tables) {
    const names = prices[0].map((_, good) => `good${good}`);
    const rows = prices.map((own, at) => own.flatMap((price, good) => [price, quantities[at][good]]));
    const table = new Purchases([names.flatMap((it) => [`p_${it}`, `q_${it}`]), ...rows]);
    const [amounts, word] = [amountsOf(table), words(seed)];
    assert.deepEqual(behaviours.map(() => behaviour(amounts, word)), behaviours);
  }
  for (const seed of [-1, 1.5, 2 ** 32, NaN]) assert.throws(() => words(seed), /a seed is an integer/);
  const table = new Purchases(parseRecords("p_a,q_a,p_b,q_b\n1.5,2,2,1\n", ","));
  const drawn = ["1", "2"].map((household, at) => ({ household, table, bundles: [[3 + at, 4]] }));
  const text = new TextDecoder().decode(drawnFile(drawn));
  assert.equal(text, "household,p_1,q_1,p_2,q_2\n1,15,3,20,4\n2,15,4,20,4\n");
});

/** A client that gives each household of a long file the same verdicts, or a fault; and what it was asked. */
function longClient(fault = "") {
  const asked = [];
  const households = async (words, bytes) => {
    const [names, ...records] = parseRecords(new TextDecoder().decode(bytes), ",");
    const ids = [...new Set(records.map((it) => it[0]))];
    asked.push({ words, names, records, ids });
    const said = fault ? `${",".repeat(12)}${fault},,` : ",2,2,violated,4/5,0.800000,yes,violated,violated,,,,,,";
    return { status: 0, output: HEAD + ids.map((it) => `${it}${said}\n`).join(""), told: "" };
  };
  return { asked, households };
}

test("drawn behaviours are households of long files, on the budgets of one table after another", async () => {
  const tables = ["1,2,2,1", "3,1,1,2"].map((it) => () =>
    new Purchases(parseRecords(`p_a,q_a,p_b,q_b\n${it}\n${it}\n`, ",")));
  const [client, found] = [longClient(), []];
  await drawBehaviours(client, tables, 7, 120, (rows) => found.push(...rows));
  assert.deepEqual(found.map((it) => it.household), Array.from({ length: 120 }, (_, at) => String(at + 1)));
  assert.deepEqual(found[0].efficiency, "4/5");
  assert.deepEqual(client.asked.map((it) => it.ids.length), [50, 50, 20]);
  assert.deepEqual(client.asked[0].words, ["long.csv", "--id", "household", "--wide"]);
  assert.deepEqual(client.asked[0].names, ["household", "p_1", "q_1", "p_2", "q_2"]);
  const prices = client.asked[1].records.map((it) => [it[0], it[1], it[3]]);
  assert.deepEqual(prices.slice(0, 4), [["51", "1", "2"], ["51", "1", "2"], ["52", "3", "1"], ["52", "3", "1"]]);
  const word = words(7);
  const drawn = tables.map((it) => it()).flatMap((it) => behaviour(amountsOf(it), word));
  const bundles = client.asked[0].records.slice(0, 4).map((it) => [Number(it[2]), Number(it[4])]);
  assert.deepEqual(bundles, drawn);
  const none = drawBehaviours(longClient("TooLarge"), tables, 7, 1, () => {});
  await assert.rejects(none, /refuses a drawn table: TooLarge/);
});

test("behaviours of long tables are asked about a few at a time", async () => {
  const text = `p_a,q_a\n${"2,3\n".repeat(512)}`;
  const client = longClient();
  await drawBehaviours(client, [() => new Purchases(parseRecords(text, ","))], 1, 9, () => {});
  assert.deepEqual(client.asked.map((it) => it.ids.length), [4, 4, 1]);
});

test("drawn behaviour spends no more than was spent, and its shares are uniform", () => {
  const table = new Purchases(parseRecords("p_a,q_a,p_b,q_b,p_c,q_c\n3,10,7,5,11,2\n", ","));
  const [amounts, word] = [amountsOf(table), words(5)];
  const spent = [3, 7, 11].map((price, good) => price * amounts[0][good]);
  assert.ok(spent.every((it) => it <= 87 * 10 ** 5 && it > 87 * 10 ** 5 - 11));
  const firsts = Array.from({ length: 4000 }, () => behaviour(amounts, word)[0][0] / amounts[0][0]);
  // of three goods the share of one is below t with chance 1 - (1 - t)^2
  for (const t of [0.1, 0.3, 0.5, 0.8]) {
    const part = firsts.filter((it) => it < t).length / firsts.length;
    assert.ok(Math.abs(part - (1 - (1 - t) ** 2)) < 0.03, `${t}: ${part}`);
  }
});

test("shares of at least a threshold are counted exactly, an index at one too", () => {
  assert.deepEqual(atThresholds(["9/10", "899999/1000000", "19/20", "949999/1000000", "1", "4/5"]), [4, 2]);
  assert.ok(isAtLeast("9/10", 90, 100) && !isAtLeast("89/100", 90, 100));
  assert.equal(shareInWords(12, 20), "12 of 20 (60.0%)");
});

test("bounds of a household in units with a decimal beside each, and none where the axiom fails", () => {
  const output =
    "observations 1 goods 1 places 0 1\ngarp holds\nranks 1\ndemand prices 2 expenditure 60\nbelow none\n" +
    "strict none\ninner 30 over 1\ngood 1 lower 100/3 upper withheld 3\nlower x 30 y none over 1\n";
  const rows = boundRows("demand", { household: "u", status: 0, output, told: "" }, ["bread"], 0);
  assert.deepEqual(rows, [["u", "0", "1", "bread", "10/3", "3.333333", "withheld", "", "", ""]]);
  const stated = output.replace("lower 100/3", "lower withheld 2");
  const [wide] = boundRows("demand", { household: "u", status: 0, output, told: "", stated }, ["bread"], 0);
  assert.deepEqual(wide, ["u", "0", "1", "bread", "10/3", "3.333333", "withheld", "", "lower", ""]);
  const none = boundRows("demand", { household: "u", status: 0, output: REPORT, told: "" }, ["bread"], 0);
  assert.equal(none[0].at(-1), "GARP is violated, so there are no bounds");
});

test("what is said of populations and firms", () => {
  const violated = "budgets 2 patches 4 types 3 total 4\nrandom violated share 3/4\nweights 1 0 1 0 over 1\n";
  const random = populationSays(violated, "random");
  assert.equal(random.head, "No: no population could have made these choices");
  assert.match(random.says, /A population of this kind makes at most 3\/4 of them \(0\.75\)\./);
  assert.match(populationSays("menus mixture over 1\n", "menus").says, /strict order/);
  const both = firmSays("technology records 2 inputs 2 places 0 0\ncost holds\nprofit violated\npair 1 2\n");
  assert.deepEqual(
    both.map((it) => it.head),
    ["Yes: the firm could have minimized cost", "No: the firm did not maximize profit"],
  );
  assert.equal(firmSays("cost violated\npair 1 2\n").length, 1);
  const bounds = "bounds prices 10 10 output 1 lower 35/2 upper 40 at 2\nlower x 1 1 y none over 1\n" +
    "bounds prices 10 10 output 9 lower 5 upper none\n";
  const said = costSays(bounds, 1);
  assert.match(said[0], /costs at least 7\/4 \(1\.75\) .* observation 2 .* cost 4 at the new prices/);
  assert.match(said[1], /at least 1\/2 \(0\.5\) .* No observation made as much\./);
});

test("welfare, demand, utility and the money pump in words, in the units of the file", () => {
  const welfare = "welfare prices 15 observation 1 lower 1250/3 upper 450 at 2\n" +
    "welfare prices 15 observation 2 lower withheld 3 upper 300 at 2\n";
  const found = welfareBounds(welfare, 2);
  assert.deepEqual(found, [
    { record: 1, observation: "1", lower: "25/6", upper: "9/2", at: "2", wide: [] },
    { record: 1, observation: "2", lower: null, upper: "3", at: "2", wide: [] },
  ]);
  const [first, second] = found.map(welfareSays);
  assert.match(first, /^Every consumer .* needs at least 25\/6 \(about 4\.1666\) .* as at observation 1\./);
  assert.match(first, / the bundle of observation 2 .* costs 9\/2 \(4\.5\)/);
  assert.match(second, /^A number got longer .* costs 3 at the new prices/);
  const bounds = demandBounds("good 1 lower 5 upper withheld 3\n", ["tea"], 1);
  assert.deepEqual(bounds, [{ name: "tea", lower: "1/2", upper: null, wide: [] }]);
  assert.match(demandSays(bounds[0])[0], /^tea: No consumer .* less of tea on this budget than 1\/2 \(0\.5\)/);
  assert.match(demandSays(bounds[0])[1], /not a verdict/);
  assert.match(utilitySays("at 1 value -12\n", false)[0], /^Bundle 1: -12\. /);
  const pumped = "observations 2 goods 2 places 0 0\npump 1/5\ncycle 1 2 1\nvalues 0 0\n";
  assert.equal(pumpSays(pumped).head, "1/5 (0.2)");
  assert.match(pumpSays("observations 1 goods 2 places 0 0\npump 0\ncycle 1 1\nvalues 0\n").head, /^0: nothing/);
});

test("what rp withholds and rp-wide gives is marked", () => {
  const good = "good 1 lower 5 upper withheld 3\n";
  const [demand] = demandBounds(good, ["tea"], 1, "good 1 lower withheld 2 upper withheld 3\n");
  assert.deepEqual(demand.wide, ["lower"]);
  assert.deepEqual(demandSays(demand).map((it) => it.endsWith(WIDE)), [true, false]);
  assert.deepEqual(demandBounds(good, ["tea"], 1, good)[0].wide, []);
  const line = (lower) => `welfare prices 15 observation 1 lower ${lower} upper 450 at 1\n`;
  assert.deepEqual(welfareBounds(line("5"), 2, line("withheld 4"))[0].wide, ["lower"]);
  const bounds = "bounds prices 1 output 1 lower 5 upper 40 at 2\nlower x 1 y none over 1\n";
  const [said] = costSays(bounds, 0, "bounds prices 1 output 1 lower withheld 3 upper 40 at 2\n");
  assert.ok(said.includes(`${WIDE} `) && !costSays(bounds, 0, bounds)[0].includes(WIDE));
});

test("the worker answers the households of a long file by the call of panels", () => {
  const source = readFileSync(new URL("worker.js", import.meta.url), "utf8");
  const asked = [];
  const panel = (words, files) => {
    asked.push([words, files]);
    return { status: 4, output: new Uint8Array(), told: bytesOf("rp-panel: long.csv: Unpaired column 2\n") };
  };
  const body = `${source}; library = self.library; return answerHouseholds;`;
  const begin = new Function("load", "postMessage", "self", body);
  const given = { words: ["long.csv", "--wide"], bytes: bytesOf("household,p_a\n") };
  const { status, output, told } = begin(null, null, { library: { panel } })(given);
  assert.deepEqual([status, output, parseFault(told).fault, parseFault(told).column], [4, "", "Unpaired", 2]);
  assert.deepEqual(asked, [[given.words, [{ name: "long.csv", bytes: given.bytes }]]]);
});

test("the worker asks the wider edition where rp withholds something that it seeks, and says both", () => {
  const source = readFileSync(new URL("worker.js", import.meta.url), "utf8");
  const answers = { rp: "", wide: "more" };
  const asked = [];
  const texts = (words, files, wide = false) => {
    asked.push(wide);
    return { status: 0, output: wide ? answers.wide : answers.rp, told: "" };
  };
  const begin = new Function("load", "postMessage", "self", `${source}; library = self.library; return asked;`);
  const answer = begin(null, null, { library: { texts } });
  const tries = [
    ["analyse", "garp holds\nhomothetic withheld steps 2 from 3 to 1\n", true],
    ["analyse", "garp holds\nafriat withheld at 3\nhomothetic holds\n", false],
    ["certify", '{"items":[{"item":"homothetic","withheld":[2,3,1]}]}', true],
    ["certify", '{"items":[{"item":"afriat","withheld":3}]}', false],
    ["demand", "good 1 lower withheld 3 upper 5\n", true],
    ["welfare", '{"lower":{"withheld":"3"}}', true],
    ["cost", "bounds prices 1 output 1 lower withheld 3 upper none\n", true],
    ["random", "random withheld 5\n", false],
  ];
  for (const [command, output, isWide] of tries) {
    answers.rp = output;
    asked.length = 0;
    const given = answer([command, "t.csv"], []);
    assert.deepEqual(asked, isWide ? [false, true] : [false], `${command}: ${output}`);
    assert.deepEqual([given.output, given.stated], isWide ? ["more", output] : [output, undefined]);
  }
  assert.equal(answer(["demand"], [], "rp").output, answers.rp);
  assert.equal(answer(["demand"], [], "rp-wide").output, "more");
});

test("the worker asks the wider edition about choices that rp refuses, and says what rp tells", () => {
  const source = readFileSync(new URL("worker.js", import.meta.url), "utf8");
  const answers = { told: "" };
  const asked = [];
  const texts = (words, files, wide = false) => {
    asked.push(wide);
    return wide ? { status: 0, output: "more", told: "" } : { status: 4, output: "", told: answers.told };
  };
  const begin = new Function("load", "postMessage", "self", `${source}; library = self.library; return asked;`);
  const answer = begin(null, null, { library: { texts } });
  const tries = [
    ["random", "rp: TooManyTypes\n", true],
    ["random", "note: by the source\nrp: TooManyCombinations\n", true],
    ["checkrandom", "rp: TooManyPatches budget 7\n", true],
    ["patches", "rp: TooManyPatches budget 7\n", true],
    ["random", "rp: NeedUnit budget 2\n", false],
    ["random", "rp: c.csv: NoChoices budget 2\n", false],
    ["menus", "rp: m.csv: TooManyCells record 9\n", false],
  ];
  for (const [command, told, isWide] of tries) {
    answers.told = told;
    asked.length = 0;
    const given = answer([command, "b.csv", "c.csv"], []);
    assert.deepEqual(asked, isWide ? [false, true] : [false], `${command}: ${told}`);
    assert.deepEqual([given.output, given.refused], isWide ? ["more", told] : ["", undefined]);
  }
  assert.equal(answer(["random"], [], "rp").told, answers.told);
});

test("the types and the patches of choices from budgets", () => {
  const output =
    "budgets 2 patches 4 types unlisted total 4\nrandom violated share 3/4\nweights 1 0 1 0 over 1\n" +
    "part 1 4 weight 1\npart 2 3 weight 2\n";
  assert.deepEqual(typesIn(output), [{ patches: [1, 4], share: "1/4" }, { patches: [2, 3], share: "1/2" }]);
  assert.equal(populationSays(output, "random").head, "No: no population could have made these choices");
  const mixture = "budgets 1 patches 2 types 2 total 10\napportioned per 10\nrandom mixture over 2\n" +
    "part 1 weight 5\npart 2 weight 15\n";
  assert.deepEqual(typesIn(mixture).map((it) => it.share), ["1/4", "3/4"]);
  assert.deepEqual(typesIn("budgets 2 patches 4 types unlisted total 4\nrandom withheld 9\n"), []);
  const patches =
    "budgets 2 patches 2 total 4\napportioned per 4\npatch 1 budget 1 units 3 sides on below\n" +
    "patch 2 budget 2 units 4 sides above on\n";
  assert.deepEqual(patchesIn(patches), [
    { patch: "1", budget: "1", share: "3/4", sides: ["on", "below"] },
    { patch: "2", budget: "2", share: "1", sides: ["above", "on"] },
  ]);
});

test("a line is split into words as by a shell", () => {
  assert.deepEqual(wordsOf(`check "my table.csv" 'c.json' --per 3`), ["check", "my table.csv", "c.json", "--per", "3"]);
});

// What `rp-wide fit` prints of the two choices that contradict each other (costs 5, 4; 4, 5), of the cycle of three
// (costs 2, 1, 3; 3, 2, 1; 1, 3, 2), and of two choices that do not.
const FIT_OF_TWO =
  "observations 2 goods 2 places 0 0\nviolations garp 2 wgarp 2 warp 2 sarp 2 of 2\nviolating observations 2 of 2\n" +
  "efficiency 4/5 attained yes\nbelow 1 1\nabove 1 2 1\nat ranks 2 2\n" +
  "kept 1 of 2\nobservations 1\nranks 0\ngroups over 1\npairs 1 2 weight 1\n" +
  "levels mean 219902325555/2199023255552 to 1/10 exact\nat 4/5 1\nranks 0 1\ncycles over 1\n" +
  "cycle 1 2 1 weight 219902325555\n" +
  "levels squares 43980465111/2199023255552 to 1/50 exact\nat 4/5 1\nranks 0 1\ncycles over 1\n" +
  "cycle 1 2 1 weight 43980465111\n" +
  "steps 1/10 to 1/10 exact\nremoved 1 to 2\nranks 0 1\ncycles over 1\ncycle 1 2 1 weight 1\n" +
  "pump 1/5\ncycle 1 2 1\nvalues 0 0\nquasilinear level 4/5\ncycle 1 2 1\nvalues 0 0\n" +
  "homothetic level 219902325555/274877906944 to 879609302221/1099511627776\ncycle 1 2 1\n" +
  "values 1152921504606846976 1152921504606846976\n";
const FIT_OF_THREE =
  "observations 3 goods 3 places 0 0\nviolations garp 3 wgarp 0 warp 0 sarp 3 of 6\nviolating observations 3 of 3\n" +
  "efficiency 1/2 attained yes\nbelow 1 1 1\nabove 1 2 3 1\nat ranks 3 3 3\n" +
  "kept 2 of 3\nobservations 1 2\nranks 1 0\ngroups over 1\ncycle 1 2 3 1 weight 1\n" +
  "levels mean 1/6 to 1/6 exact\nat 1 1 1/2\nranks 2 1 0\ncycles over 1\n" +
  "cycle 1 2 3 1 weight 549755813888\n" +
  "levels squares 1/12 to 1/12 exact\nat 1 1 1/2\nranks 2 1 0\ncycles over 1\n" +
  "cycle 1 2 3 1 weight 274877906944\n" +
  "steps 1/6 to 1/6 exact\nremoved 3 to 1\nranks 2 1 0\ncycles over 1\ncycle 1 2 3 1 weight 1\n" +
  "pump 1/2\ncycle 1 2 3 1\nvalues 0 0 0\nquasilinear level 1/2\ncycle 1 2 3 1\nvalues 0 0 0\n" +
  "homothetic level 1/2 to 1/2\ncycle 1 2 3 1\n" +
  "values 1152921504606846976 1152921504606846976 1152921504606846976\n";
const FIT_OF_NONE =
  "observations 2 goods 2 places 2 0\nviolations garp 0 wgarp 0 warp 0 sarp 0 of 2\nviolating observations 0 of 2\n" +
  "efficiency 1 attained yes\nbelow 1 1\nat ranks 1 1\n" +
  "kept 2 of 2\nobservations 1 2\nranks 0 0\ngroups over 1\npairs 1 weight 1\npairs 2 weight 1\n" +
  "levels mean 0 to 0 exact\nat 1 1\nranks 0 1\ncycles over 1\nlevels squares 0 to 0 exact\nat 1 1\nranks 0 1\n" +
  "cycles over 1\nsteps 0 to 0 exact\nranks 0 1\ncycles over 1\npump 0\ncycle 1 1\nvalues 0 0\n" +
  "quasilinear level 1\ncycle 1 1\nvalues 0 0\nhomothetic level 1 to 1\ncycle 1 1\n" +
  "values 1152921504606846976 1152921504606846976\n";
const TWO = new Purchases(parseRecords(CONTRADICTION, ","));

test("goodness of fit of two choices that contradict each other, by hand", () => {
  const items = parseFit(FIT_OF_TWO);
  // Each strictly prefers itself to the other: both ordered pairs violate each axiom.
  const { garp, wgarp, warp, sarp, pairs, observations, of } = items.violations;
  assert.deepEqual([garp, wgarp, warp, sarp, pairs, observations, of], [2, 2, 2, 2, 2, 2, 2]);
  assert.deepEqual(shareOfPairs(garp, pairs), ["2 of 2", "1"]);
  assert.equal(violationsSay(items.violations).head, "2 of 2 pairs violate GARP");
  assert.match(violationsSay(items.violations).says, / 2 of the 2 observations are in pairs that violate GARP\.$/);
  // One can stay, and the other has to go.
  assert.deepEqual([items.kept.least, items.kept.most, items.kept.of], [1, 1, 2]);
  assert.deepEqual([items.kept.observations, goneOf(items.kept)], [[1], [2]]);
  assert.deepEqual(items.kept.groups, [{ kind: "pairs", members: [1, 2], weight: "1" }]);
  assert.equal(keptSays(items.kept).head, "1 of 2 can stay (0.5)");
  assert.match(keptSays(items.kept).says, /could have made 1 of the 2 choices\. No .* could have made more of them\.$/);
  assert.match(goneSay(items.kept, TWO), /^Without observation 2, .* 1 observation of 2 would have to go\./);
  // At the level 4/5 of one observation: (1 - 4/5)/2 = 1/10, and (1 - 4/5)^2/2 = 1/50.
  assert.deepEqual([meanLoss(items.mean.levels), meanLoss(items.squares.levels, 2)], ["1/10", "1/50"]);
  assert.deepEqual(levelRows(items, TWO), [["1", "4/5 (0.8)", "4/5 (0.8)"]]);
  assert.deepEqual(["mean", "squares"].map((it) => levelsSay(items[it], it).head), ["about 0.1", "about 0.02"]);
  const [mean, squares] = ["mean", "squares"].map((it) => levelsSay(items[it], it).says);
  assert.match(mean, /these levels are 1\/10 \(0\.1\) below 1\. Levels .* at least 0\.09999/);
  assert.match(squares, /have squares with the mean 1\/50 \(0\.02\)\./);
  // One strict preference costs 5 - 4 = 1 of 10 that was spent.
  assert.equal(stepsSay(items.steps).head, "1/10 (0.1)");
  assert.deepEqual(removedSays(items.steps.removed, TWO), [
    "Observation 1 over observation 2: 5 was spent, and the other bundle would have cost 4. The difference is 1.",
  ]);
  // Along the cycle 2 of 10 is lost, and the next bundles cost 8 of 10.
  assert.equal(fitPumpSays(items.pump).head, "1/5 (0.2)");
  assert.equal(quasilinearSays(items.quasilinear).head, "4/5 (0.8)");
  assert.deepEqual([items.pump.cycle, items.quasilinear.cycle, items.homothetic.cycle], Array(3).fill([1, 2, 1]));
  // The product of the ratios is 16/25, whose root is 4/5: between the bounds.
  const [low, high] = [items.homothetic.low, items.homothetic.high].map((it) => it.split("/").map(BigInt));
  assert.ok(25n * low[0] ** 2n <= 16n * low[1] ** 2n && 16n * high[1] ** 2n <= 25n * high[0] ** 2n);
  assert.equal(homotheticSays(items.homothetic).head, "about 0.8");
  assert.equal(items.efficiency.level, "4/5");
});

test("goodness of fit of a cycle of three, and of choices that violate nothing, by hand", () => {
  const three = parseFit(FIT_OF_THREE);
  // Each reaches each: the pairs 1 before 3, 2 before 1 and 3 before 2 have a strict step back; no two contradict.
  const counts = ({ garp, wgarp, warp, sarp, pairs, observations }) => [garp, wgarp, warp, sarp, pairs, observations];
  assert.deepEqual(counts(three.violations), [3, 0, 0, 3, 6, 3]);
  assert.deepEqual(shareOfPairs(three.violations.garp, 6), ["3 of 6", "1/2 (0.5)"]);
  assert.deepEqual([three.kept.least, three.kept.most, goneOf(three.kept)], [2, 2, [3]]);
  assert.deepEqual(three.kept.groups, [{ kind: "cycle", members: [1, 2, 3, 1], weight: "1" }]);
  // One observation at 1/2: (1 - 1/2)/3 = 1/6, and (1 - 1/2)^2/3 = 1/12. The step costs 2 - 1 of 6.
  assert.deepEqual([meanLoss(three.mean.levels), meanLoss(three.squares.levels, 2)], ["1/6", "1/12"]);
  assert.equal(stepsSay(three.steps).head, "1/6 (about 0.1666)");
  assert.equal(homotheticSays(three.homothetic).head, "1/2 (0.5)");
  const none = parseFit(FIT_OF_NONE);
  assert.deepEqual(counts(none.violations), [0, 0, 0, 0, 2, 0]);
  assert.deepEqual([none.kept.least, none.kept.most, goneOf(none.kept)], [2, 2, []]);
  const heads = [
    violationsSay(none.violations),
    keptSays(none.kept),
    levelsSay(none.mean, "mean"),
    levelsSay(none.squares, "squares"),
    stepsSay(none.steps),
    fitPumpSays(none.pump),
    quasilinearSays(none.quasilinear),
    homotheticSays(none.homothetic),
  ].map((it) => it.head);
  assert.deepEqual(heads, [
    "0 of 2 pairs violate GARP",
    "2 of 2 can stay",
    "0: nothing has to be ignored",
    "0: nothing has to be ignored",
    "0: nothing has to be dropped",
    "0: nothing is lost",
    "1: nothing has to be ignored",
    "1: nothing has to be ignored",
  ]);
  assert.equal(goneSay(none.kept, TWO), "No observation has to go.");
});

test("bounds that do not meet are both told, rounded outward, and an item that is not found is no verdict", () => {
  const open = parseFit(
    FIT_OF_TWO.replace("kept 1 of 2", "kept 40 to 41 of 50").replace("to 1/10 exact", "to 54975581389/274877906944")
      .replace("steps 1/10 to 1/10 exact", "steps 1/7 to 1/3").replace(/quasilinear level [^]*$/, ""),
  );
  assert.equal(keptSays(open.kept).head, "From 40 to 41 of 50 can stay");
  assert.match(keptSays(open.kept).says, /40 of the 50 choices\. No .* more than 41 of them\./);
  const some = { least: 3, most: 4, of: 5, observations: [1, 2, 4] };
  const five = { labels: ["1", "2", "third", "4", "5"] };
  assert.match(goneSay(some, five), /^Without observations 3 \(third\) and 5, .* From 1 to 2 observations of 5 would/);
  // 219902325555/2199023255552 is less than 1/10, and 54975581389/274877906944 more than 1/5.
  assert.equal(levelsSay(open.mean, "mean").head, "0.0999 to 0.2001");
  assert.match(levelsSay(open.mean, "mean").says, /The index is between the two\.$/);
  assert.equal(stepsSay(open.steps).head, "0.1428 to 0.3334");
  const cost = stepsSay(open.steps).says;
  assert.match(cost, /costs 1\/3 \(about 0\.3333\) .* no way costs less than 1\/7 \(about 0\.1428\)\.$/);
  for (const it of [quasilinearSays(open.quasilinear), homotheticSays(open.homothetic)]) {
    assert.equal(it.head, "Not found");
    assert.match(it.says, /not a verdict/);
  }
  // Weights that leave less than one unit of cost: the upper bound is the index.
  const near = parseFit(FIT_OF_TWO.replace("steps 1/10 to 1/10 exact", "steps 1/15 to 1/10 exact"));
  assert.equal(stepsSay(near.steps).head, "1/10 (0.1)");
  // What is not 0 does not read 0.
  const tiny = { low: "1/1099511627776", high: "2/1099511627776", isExact: true };
  assert.equal(boundsSay(tiny), "0 to 0.0001");
  assert.deepEqual([rounded("2/3", 4), rounded("2/3", 4, true), rounded("1/2", 4, true)], ["0.6666", "0.6667", "0.5"]);
  for (const wrong of ["", "usage: rp pairs TABLE\n", REPORT]) assert.throws(() => parseFit(wrong), /gave no indices/);
});

test("the indices as papers call them, on the page and in a file; and none that adds money of several", () => {
  const rows = indexRows(parseFit(FIT_OF_TWO));
  assert.deepEqual(rows.map(({ name, ...it }) => [name, boundsSay(it)]), [
    ["violations of GARP, share of pairs", "1"],
    ["CCEI", "4/5 (0.8)"],
    ["HM, share kept", "1/2 (0.5)"],
    ["AVI, mean", "about 0.1"],
    ["AVI, mean of squares", "about 0.02"],
    ["MCI", "1/10 (0.1)"],
    ["MPI, maximum", "1/5 (0.2)"],
    ["quasilinear level", "4/5 (0.8)"],
    ["homothetic level", "about 0.8"],
  ]);
  const records = indexRecords(rows);
  assert.deepEqual(records[3], ["HM, share kept", "1/2", "0.500000", "1/2", "0.500000"]);
  assert.deepEqual([records[4][2], records[4][4]], ["0.099999", "0.100000"]);
  const own = indexRows(parseFit(FIT_OF_TWO), true).map((it) => it.name);
  assert.deepEqual(own.filter((it) => ["MCI", "MPI, maximum", "quasilinear level"].includes(it)), []);
  assert.equal(own.length, rows.length - 3);
});

test("goodness of fit of a unit is in columns before those of an error, rounded down and up", () => {
  const fields = fitFields({ status: 0, output: FIT_OF_TWO });
  assert.deepEqual(fields, {
    garp_pairs: "2",
    wgarp_pairs: "2",
    warp_pairs: "2",
    sarp_pairs: "2",
    kept: "1",
    kept_most: "1",
    levels_low: "0.099999",
    levels_high: "0.100000",
    squares_low: "0.019999",
    squares_high: "0.020000",
    steps_low: "0.100000",
    steps_high: "0.100000",
  });
  assert.deepEqual(Object.keys(fields), FIT_COLUMNS);
  const ownMoney = fitFields({ status: 0, output: FIT_OF_TWO }, true);
  assert.deepEqual([ownMoney.steps_low, ownMoney.steps_high, ownMoney.levels_low], ["", "", "0.099999"]);
  assert.deepEqual([...new Set(Object.values(fitFields({ status: 4, output: "" })))], [""]);
  const row = { ...Object.fromEntries(COLUMNS.map((it) => [it, ""])), household: "u", ...fields };
  const [names, first] = tableRecords([row], "subject", FIT_COLUMNS);
  assert.equal(names.length, COLUMNS.length + FIT_COLUMNS.length);
  assert.deepEqual(names.slice(-4), ["steps_high", "fault", "record", "column"]);
  assert.deepEqual([first[names.indexOf("kept")], first[names.indexOf("levels_high")]], ["1", "0.100000"]);
});

test("what a checked certificate on goodness of fit proves, item by item", () => {
  const cycles = (weight) => [{ cycle: [1, 2, 1], weight }];
  const items = [
    { item: "violations", garp: "2", wgarp: "2", warp: "2", sarp: "2", observations: "2" },
    { item: "efficiency", level: "4/5", at_ranks: [2, 2], below: [1, 1], above: [1, 2, 1] },
    { item: "kept", kept: [1], most: "1", ranks: [0], den: "1", groups: [{ pairs: [1, 2], weight: "1" }] },
    { item: "levels", measure: "mean", at: [2, 0], ranks: [0, 1], den: "1", cycles: cycles("219902325555") },
    { item: "levels", measure: "squares", at: [0, 0], ranks: [0, 1], den: "1", cycles: [] },
    { item: "steps", cost: "1", taken: [[2], []], ranks: [0, 1], den: "1", cycles: cycles("1") },
    { item: "steps", cost: "3", taken: [[2], []], ranks: [0, 1], den: "2", cycles: cycles("3") },
    { item: "pump", num: "2", den: "10", cycle: [1, 2, 1], values: ["0", "0"] },
    { item: "quasilinear_level", num: "8", den: "10", cycle: [1, 2, 1], values: ["0", "0"] },
    { item: "homothetic_level", low: "879609302220", high: "879609302221", cycle: [1, 2, 1], values: [] },
  ];
  const text = JSON.stringify({ items, kind: "fit", version: 1 });
  assert.deepEqual(checkInWords("accepted items 10\n", text), [
    "Item 1: 2 pairs violate GARP, 2 WGARP, 2 WARP and 2 SARP; 2 observations in pairs that violate GARP: proved.",
    "Item 2: the CCEI is 4/5 (0.8), attained: proved.",
    "Item 3: the maximum number of observations that satisfy GARP together (HM) is 1: proved.",
    "Item 4: Varian's index (AVI) by the mean is at least 0.099999999999, rounded down, and at most what its levels " +
      "lose, which are below 1 at 1 observation: proved.",
    "Item 5: Varian's index (AVI) by the mean of squares is at least 0, rounded down, and at most 0: proved.",
    "Item 6: the minimum cost of strict preferences to drop (MCI) is 1, in scaled units: proved.",
    "Item 7: the minimum cost of strict preferences to drop (MCI) is from 3/2 to 3, in scaled units: proved.",
    "Item 8: the maximum money pump index is 1/5 (0.2): proved.",
    "Item 9: the level of the quasilinear test is 4/5 (0.8): proved.",
    "Item 10: the level of the homothetic test is from 0.799999999999 to 0.800000000001, rounded outward: proved.",
  ]);
  const own = checkInWords("accepted items 10\n", text, true);
  assert.deepEqual(own.map((it) => it.includes("says nothing about the data")), [
    ...Array(5).fill(false),
    ...Array(4).fill(true),
    false,
  ]);
  const rejected = checkInWords("rejected item 3 Bound place 0\n", text);
  assert.match(rejected[0], /^Item 3 claims: the maximum number of observations .* is 1\.$/);
  assert.match(rejected.at(-1), /proves nothing/);
  // What is of no such form was never accepted, and nothing is read from it.
  const wrong = '{"items":[{"item":"steps"}],"kind":"fit"}';
  assert.match(checkInWords("rejected item 1 Number place 1\n", wrong).at(-1), /^Item 1/);
});

test("a certificate on goodness of fit is checked by the command for its kind", () => {
  assert.deepEqual(checkedBy("check", '{"items":[],"kind":"fit","version":1}'), ["checkfit", "rp-wide"]);
  for (const other of ['{"items":[],"kind":"table","version":1}', "none", "null", "[1]", ""]) {
    assert.deepEqual(checkedBy("check", other), ["check", null]);
  }
  assert.deepEqual(checkedBy("checkrandom", '{"kind":"fit"}'), ["checkrandom", null]);
});

test("the worker says of a module without rp-wide what it says of words that are no command", () => {
  const source = readFileSync(new URL("worker.js", import.meta.url), "utf8");
  const texts = () => {
    throw new Error("the module does not have this call");
  };
  const begin = new Function("load", "postMessage", "self", `${source}; library = self.library; return answerOne;`);
  const old = begin(null, null, { library: { texts, hasWide: false } });
  const answer = old({ words: ["fit", "t.csv"], files: [], edition: "rp-wide" });
  assert.ok(lacksFit(answer) && answer.output === "");
  const asked = [];
  const has = { hasWide: true, texts: (...given) => (asked.push(given), { status: 0, output: FIT_OF_TWO, told: "" }) };
  const many = new Function("load", "postMessage", "self", `${source}; library = self.library; return answerPanel;`);
  const households = [{ household: "u", bytes: bytesOf("p_a,q_a\n") }];
  const given = { words: ["fit", "table.csv"], households, more: [] };
  const [found] = many(null, null, { library: has })({ ...given, edition: "rp-wide" });
  assert.deepEqual([found.household, found.output], ["u", FIT_OF_TWO]);
  assert.deepEqual(asked.map(([words, , isWide]) => [words, isWide]), [[["fit", "table.csv"], true]]);
});

test("whether a module answers as rp-wide is known by its calls, before it is asked", async () => {
  const begin = [0, 0x61, 0x73, 0x6d, 1, 0, 0, 0];
  // A function of nothing, under the name of the call.
  const name = [..."rp_answer_wide"].map((it) => it.charCodeAt(0));
  const [type, own] = [[1, 4, 1, 0x60, 0, 0], [3, 2, 1, 0]];
  const exported = [7, name.length + 4, 1, name.length, ...name, 0, 0];
  const wide = [...begin, ...type, ...own, ...exported, 10, 4, 1, 2, 0, 0x0b];
  const has = async (bytes) => (await load(Uint8Array.from(bytes))).hasWide;
  assert.deepEqual([await has(begin), await has(wide)], [false, true]);
});

/** Elements enough for the cards, and no more: their children, and their texts joined. */
class Element {
  constructor(name) {
    [this.name, this.children, this.listeners, this.own] = [name, [], {}, ""];
  }

  append(...children) {
    this.children.push(...children);
  }

  replaceChildren(...children) {
    this.children = children;
  }

  addEventListener(kind, does) {
    this.listeners[kind] = does;
  }

  contains(it) {
    return it === this || this.children.some((own) => own.contains?.(it));
  }

  focus() {
    document.activeElement = this;
  }

  setAttribute() {}

  set textContent(text) {
    [this.children, this.own] = [[], text];
  }

  get textContent() {
    return this.own + this.children.map((it) => it.textContent ?? it).join(" ");
  }

  all(name) {
    return this.children.flatMap((it) => (it.name ? [...(it.name === name ? [it] : []), ...it.all(name)] : []));
  }
}

test("the part on goodness of fit: its cards, what it says where there are none, and how it ends", async () => {
  globalThis.document = { createElement: (name) => new Element(name) };
  try {
    const asked = [];
    const section = async (answer, { table = TWO, hasOwnMoney = false } = {}) => {
      const kept = [];
      const client = { answer: async (...given) => (asked.push(given), answer()), stop: () => {} };
      const own = fitSection({ client, file: { name: "t.csv" } }, table, hasOwnMoney, (items) => kept.push(items.kept));
      await new Promise((resolve) => setTimeout(resolve, 0));
      return { own, kept };
    };
    const whole = await section(() => ({ status: 0, output: FIT_OF_TWO, told: "" }));
    assert.deepEqual(asked[0], [["fit", "t.csv"], [{ name: "t.csv" }], "rp-wide"]);
    assert.equal(whole.own.all("article").length, 7);
    assert.deepEqual(goneOf(whole.kept[0]), [2]);
    assert.match(whole.own.textContent, /1 of 2 can stay \(0\.5\)/);
    const exchanged = await section(() => ({ status: 0, output: FIT_OF_TWO, told: "" }), { hasOwnMoney: true });
    assert.equal(exchanged.own.all("article").length, 4);
    assert.match(exchanged.own.textContent, /has its own unit of money/);
    const lacks = await section(() => ({ status: 2, output: "", told: "usage: rp pairs TABLE\n" }));
    assert.ok(lacks.own.textContent.trim().endsWith(LACKS_FIT) && !lacks.kept.length);
    const refused = await section(() => ({ status: 4, output: "", told: "rp: t.csv: OwnLevels\n" }));
    assert.match(refused.own.textContent, /OwnLevels\. .*column e/);
    const stopped = await section(() => {
      throw new Stopped("stopped");
    });
    assert.match(stopped.own.textContent, /Stopped\. Compute the indices$/);
    const broken = await section(() => ({ status: 0, output: "what is no report\n", told: "" }));
    assert.match(broken.own.textContent, /No result: the program gave no indices of this table\./);
    // A long table is asked about by a button alone.
    const rows = Array(61).fill("1,1,2,2\n").join("");
    const long = new Purchases(parseRecords(`p_a,q_a,p_b,q_b\n${rows}`, ","));
    asked.length = 0;
    const ofLong = FIT_OF_NONE.replaceAll("at 1 1\n", `at ${Array(61).fill(1).join(" ")}\n`);
    const waits = await section(() => ({ status: 0, output: ofLong, told: "" }), { table: long });
    assert.match(waits.own.textContent, /With 61 observations this may take some seconds.* Compute the indices$/);
    assert.equal(asked.length, 0);
    const [compute] = waits.own.all("button");
    compute.focus();
    await compute.listeners.click();
    assert.equal(asked.length, 1);
    // Who pressed the button reads on at the head of the part; who did not keeps the focus.
    assert.equal(document.activeElement, waits.own.all("h3")[0]);
    document.activeElement = compute;
    const unasked = await section(() => ({ status: 0, output: FIT_OF_TWO, told: "" }));
    assert.ok(unasked.own.all("article").length === 7 && document.activeElement === compute);
  } finally {
    delete globalThis.document;
  }
});

test("the key of a picture has a line more where its entries need it", () => {
  const entries = [["chosen", "chosen bundle"], ["cross", "would have to go"]];
  const [wide, narrow] = [640, 250].map((it) => keyPlaces(entries, it));
  assert.deepEqual(wide.placed.map((it) => it.line), [14, 14]);
  assert.deepEqual(narrow.placed.map((it) => [it.x, it.line]), [[8, 14], [8, 36]]);
  assert.ok(narrow.height > wide.height && keyPlaces([], 640).height === 0);
  assert.ok(wide.placed[1].x >= 42 + 7 * "chosen bundle".length);
});
