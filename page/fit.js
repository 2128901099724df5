/** What `rp-wide fit` prints of a table, read back and in words. Each number is the program's own. */
import { about, decimal, inUnits, listed, numbersIn, withDecimal } from "./reports.js";
import { sentence } from "./sentences.js";
import { writeRecords } from "./sheets.js";

/** What is said where the module does not have the commands on goodness of fit. */
export const LACKS_FIT =
  "The module of this page does not compute indices of goodness of fit. Use the page of a newer release.";

export const LACKS_CHECK =
  "The module of this page does not check certificates on goodness of fit. Use the page of a newer release.";

/** Whether the module does not know these commands: it prints how commands are called. */
export const lacksFit = (answer) => answer.status === 2;

/** The two bounds in the words after an index, and whether the program says that they meet. */
function twoBounds(words) {
  const [low, , high, exact] = words;
  return { low, high, isExact: low === high || exact === "exact" };
}

/** Those of a root: they meet where they are as near as the program seeks, 2^-40. */
function rootBounds([low, , high]) {
  const [[a, b], [c, d]] = [low, high].map(partsOf);
  return { low, high, isExact: (c * b - a * d) * 2n ** 40n <= b * d };
}

// What each line begins an item with, by its first word.
const BEGINS = {
  violations: (words) => ({
    ...Object.fromEntries(["garp", "wgarp", "warp", "sarp"].map((it, at) => [it, Number(words[2 * at + 1])])),
    pairs: Number(words[9]),
  }),
  efficiency: ([level, , attained]) => ({ level, attained }),
  kept: (words) => ({
    least: Number(words[0]),
    most: Number(words[1] === "to" ? words[2] : words[0]),
    of: Number(words.at(-1)),
    groups: [],
  }),
  mean: twoBounds,
  squares: twoBounds,
  steps: (words) => ({ ...twoBounds(words), removed: [] }),
  pump: ([ratio]) => ({ ratio }),
  quasilinear: ([level]) => ({ level }),
  homothetic: rootBounds,
};

/** The name of the item that a line begins, and its further words; nothing where it belongs to the item before it. */
function beginOf([first, ...rest]) {
  if (first === "levels") return [rest[0], rest.slice(1)];
  if (rest[0] === "level" && (first === "quasilinear" || first === "homothetic")) return [first, rest.slice(1)];
  return ["violations", "efficiency", "kept", "steps", "pump"].includes(first) ? [first, rest] : null;
}

/** Takes a line that belongs to an item. */
function takeLine(item, [first, ...rest]) {
  if (first === "violating") [item.observations, item.of] = [Number(rest[1]), Number(rest[3])];
  else if (first === "observations") item.observations = numbersIn(rest.join(" "));
  else if (first === "at" && rest[0] !== "ranks" && rest[0] !== "cycle") item.levels = rest;
  else if (first === "removed") item.removed.push({ from: Number(rest[0]), to: rest.slice(2).map(Number) });
  else if (item.groups && (first === "pairs" || first === "cycle")) {
    item.groups.push({ kind: first, members: rest.slice(0, -2).map(Number), weight: rest.at(-1) });
  } else if (first === "cycle" && !item.cycle) item.cycle = numbersIn(rest.join(" "));
}

/** The items of a report of `fit`: `violations`, `efficiency`, `kept`, `mean`, `squares`, and so on, by their names. */
export function parseFit(text) {
  const items = {};
  let item = null;
  for (const line of text.split("\n").filter(Boolean)) {
    const words = line.split(" ");
    const begins = beginOf(words);
    if (begins) items[begins[0]] = item = BEGINS[begins[0]](begins[1]);
    else if (item) takeLine(item, words);
  }
  if (!items.violations || !items.kept) throw new Error("the program gave no indices of this table");
  return items;
}

/** The observations of a table that are not kept. */
export function goneOf(kept) {
  const stay = new Set(kept.observations);
  return Array.from({ length: kept.of }, (_, at) => at + 1).filter((it) => !stay.has(it));
}

const partsOf = (fraction) => {
  const [num, den = "1"] = fraction.split("/");
  return [BigInt(num), BigInt(den)];
};

/** What these levels lack of 1 on average, or the mean of the squares of that, exactly. */
export function meanLoss(levels, power = 1) {
  // In lowest terms once, at the end: of many levels the numbers are long.
  const [num, den] = levels.filter((it) => it !== "1").map(partsOf).reduce(([sum, all], [a, b]) => {
    const [lack, whole] = [(b - a) ** BigInt(power), b ** BigInt(power)];
    return [sum * whole + lack * all, all * whole];
  }, [0n, 1n]);
  return inUnits(`${num}/${den * BigInt(levels.length)}`, 0);
}

/** A fraction with so many decimal places, rounded down, or up. */
export function rounded(fraction, places, isUp = false) {
  const [num, den] = partsOf(fraction);
  const more = isUp ? den - 1n : 0n;
  return decimal((num * 10n ** BigInt(places) + more) / den, places);
}

/** The same with all of its places, as in the table of a panel. */
export function sixPlaces(fraction, isUp = false) {
  const [whole, part = ""] = rounded(fraction, 6, isUp).split(".");
  return `${whole}.${part.padEnd(6, "0")}`;
}

/** The nearest decimal of two bounds, where both have the same one. */
function nearestOf(low, high, places = 4) {
  const nearest = (fraction) => {
    const [num, den] = partsOf(fraction);
    return (2n * num * 10n ** BigInt(places) + den) / (2n * den);
  };
  return nearest(low) === nearest(high) ? decimal(nearest(low), places) : null;
}

/** Two bounds in words: a fraction where they are one; a decimal where they meet; else the decimals of both. */
export function boundsSay({ low, high, isExact }) {
  if (low === high) return withDecimal(low);
  const nearest = isExact ? nearestOf(low, high) : null;
  return nearest && nearest !== "0" ? `about ${nearest}` : `${rounded(low, 4)} to ${rounded(high, 4, true)}`;
}

/** A fraction that is not too long to read, or about what it is. */
const readable = (fraction) => (fraction.length < 40 ? withDecimal(fraction) : `about ${rounded(fraction, 6)}`);

/** A number of these, in words. */
export const countOf = (count, name) => `${count} ${name}${count === 1 ? "" : "s"}`;

/** An observation's number, with its label where that is not the number. */
const nameOf = (number, table) =>
  (table.labels[number - 1] === String(number) ? String(number) : `${number} (${table.labels[number - 1]})`);

/** Observations as a sentence names them. */
export const observationsSay = (numbers, table) =>
  `${numbers.length === 1 ? "observation" : "observations"} ${listed(numbers.map((it) => nameOf(it, table)))}`;

/** What the numbers of violations say. */
export function violationsSay({ garp, pairs, observations, of }) {
  const bound = garp === 0 ? "0" : "above 0";
  return sentence("violations", "counts", { bound }, { garp, pairs, observations, n: of });
}

/** A number of pairs of all of them, and the share that it is, as a fraction with its decimal. */
export const shareOfPairs = (count, pairs) =>
  [`${count} of ${pairs}`, pairs ? withDecimal(inUnits(`${count}/${pairs}`, 0)) : "none"];

/** What the kept observations say. */
export function keptSays({ least, most, of }) {
  const bound = least === of ? "all" : least === most ? "equal" : "two";
  return sentence("kept", "index", { bound }, { kept: least, most, n: of, about: about(inUnits(`${least}/${of}`, 0)) });
}

/** What levels say; by the mean of what they lack, or by that of its squares. */
export function levelsSay(item, measure) {
  const isNone = item.high === "0";
  const bound = isNone ? "0" : item.isExact ? "equal" : "two";
  const loss = readable(meanLoss(item.levels, measure === "mean" ? 1 : 2));
  const low = rounded(item.low, item.isExact ? 12 : 6);
  return sentence("levels", measure, { bound }, { bounds: boundsSay(item), loss, low });
}

/** The cost of steps as the index: where the bounds meet it is the upper one. */
export const stepsBounds = (item) => (item.isExact ? { ...item, low: item.high } : item);

/** What the cost of steps says. */
export function stepsSay(item) {
  const { low, high } = stepsBounds(item);
  const bound = high === "0" ? "0" : low === high ? "equal" : "two";
  const values = { bounds: boundsSay(stepsBounds(item)), low: readable(low), high: readable(high) };
  return sentence("steps", "index", { bound }, values);
}

/** What the maximum money pump index says. */
export function fitPumpSays({ ratio }) {
  const bound = ratio === "0" ? "0" : "above 0";
  return sentence("fit pump", "ratio", { bound }, { ratio, about: about(ratio) });
}

/** What the level of the quasilinear test says; nothing is known where the report does not have it. */
export function quasilinearSays(item) {
  if (!item) return sentence("quasilinear level", "none");
  const { level } = item;
  const bound = level === "1" ? "1" : "below 1";
  return sentence("quasilinear level", "level", { bound }, { level, about: about(level) });
}

/** The same of the homothetic test. */
export function homotheticSays(item) {
  if (!item) return sentence("homothetic level", "none");
  const bound = item.low === "1" ? "1" : "two";
  const values = { bounds: boundsSay(item), low: rounded(item.low, 12), high: rounded(item.high, 12, true) };
  return sentence("homothetic level", "level", { bound }, values);
}

/**
 * The indices as papers report them, a row for each: its name, both bounds as fractions, and its decimals. Where each
 * observation has money of its own, nothing is told that adds it.
 */
export function indexRows(items, hasOwnMoney = false) {
  const { violations, efficiency, kept, mean, squares, pump, quasilinear, homothetic } = items;
  const one = (fraction) => ({ low: fraction, high: fraction, isExact: true });
  const share = (count) => inUnits(`${count}/${kept.of}`, 0);
  const steps = stepsBounds(items.steps);
  const ofPairs = violations.pairs ? inUnits(`${violations.garp}/${violations.pairs}`, 0) : "0";
  const rows = [
    ["violations of GARP, share of pairs", one(ofPairs)],
    ["CCEI", one(efficiency.level)],
    ["HM, share kept", { low: share(kept.least), high: share(kept.most), isExact: kept.least === kept.most }],
    ["AVI, mean", mean],
    ["AVI, mean of squares", squares],
    ...(hasOwnMoney ? [] : [["MCI", steps], ["MPI, maximum", one(pump.ratio)]]),
    ...(quasilinear && !hasOwnMoney ? [["quasilinear level", one(quasilinear.level)]] : []),
    ...(homothetic ? [["homothetic level", homothetic]] : []),
  ];
  return rows.map(([name, it]) => ({ name, ...it }));
}

/** The same as a file: both bounds as fractions, and as decimals of six places, rounded down and up. */
export const indexRecords = (rows) => [
  ["index", "low", "low_floor", "high", "high_ceiling"],
  ...rows.map(({ name, low, high }) => [name, low, sixPlaces(low), high, sixPlaces(high, true)]),
];

/** Its text. */
export const indexFile = (rows) => writeRecords(indexRecords(rows));

/** What is said of the observations that are not kept. */
export function goneSay(kept, table) {
  const gone = goneOf(kept);
  if (!gone.length) return "No observation has to go.";
  const without = `Without ${observationsSay(gone, table)}, the other observations satisfy GARP.`;
  // Fewer may do where the bounds do not meet.
  const least = kept.of - kept.most;
  const count = least < gone.length
    ? `From ${least} to ${gone.length} observations of ${kept.of} would have to go.`
    : `${countOf(gone.length, "observation")} of ${kept.of} would have to go.`;
  return `${without} ${count} Another set of the same size may do as well.`;
}

/** What dropping each of the strict preferences costs, in words. */
export const removedSays = (removed, table) => removed.flatMap(({ from, to }) => to.map((other) => {
  const [paid, cost] = [table.cost(from - 1, from - 1), table.cost(from - 1, other - 1)];
  const costs = `${table.money(paid)} was spent, and the other bundle would have cost ${table.money(cost)}`;
  return `Observation ${from} over observation ${other}: ${costs}. The difference is ${table.money(paid - cost)}.`;
}));

/** The observations whose level is below 1 by either measure: each as it is named, and both levels with a decimal. */
export function levelRows({ mean, squares }, table) {
  return table.labels.flatMap((_, at) => {
    const both = [mean.levels[at], squares.levels[at]];
    return both.every((it) => it === "1") ? [] : [[nameOf(at + 1, table), ...both.map(withDecimal)]];
  });
}

/** The columns that goodness of fit adds to the table of a panel. */
export const FIT_COLUMNS = [
  "garp_pairs",
  "wgarp_pairs",
  "warp_pairs",
  "sarp_pairs",
  "kept",
  "kept_most",
  "levels_low",
  "levels_high",
  "squares_low",
  "squares_high",
  "steps_low",
  "steps_high",
];

/** The fields of these columns of an answer of `fit`; empty where it is an error. */
export function fitFields({ status, output }, hasOwnMoney = false) {
  if (status !== 0) return Object.fromEntries(FIT_COLUMNS.map((it) => [it, ""]));
  const { violations, kept, mean, squares, steps } = parseFit(output);
  const bounds = (name, { low, high }) => ({
    [`${name}_low`]: sixPlaces(low),
    [`${name}_high`]: sixPlaces(high, true),
  });
  return {
    garp_pairs: String(violations.garp),
    wgarp_pairs: String(violations.wgarp),
    warp_pairs: String(violations.warp),
    sarp_pairs: String(violations.sarp),
    kept: String(kept.least),
    kept_most: String(kept.most),
    ...bounds("levels", mean),
    ...bounds("squares", squares),
    ...(hasOwnMoney ? { steps_low: "", steps_high: "" } : bounds("steps", stepsBounds(steps))),
  };
}
