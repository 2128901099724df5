/**
 * The program's texts read back, and what they say in words. Costs are exact: whole numbers in the table's own scale.
 */
import { sentenceOf } from "./facts.js";

// The words with which the items of a report on a table begin.
const HEADS = ["garp", "afriat", "efficiency", "homothetic", "quasilinear", "pump"];

/** Gives the items of a report on a table by the first words of its lines. */
export function parseReport(text) {
  const report = { lines: text.split("\n").filter(Boolean), items: {} };
  let item = null;
  for (const line of report.lines) {
    const [first, ...rest] = line.split(" ");
    if (first === "observations") {
      report.size = { observations: +rest[0], goods: +rest[2], prices: +rest[4], quantities: +rest[5] };
    }
    else if (first === "levels") report.levels = rest.map(Number);
    else if (HEADS.includes(first)) {
      item = { verdict: rest.join(" ") };
      report.items[first] = item;
    } else if (item) {
      const key = first === "at" ? `at ${rest[0]}` : first;
      item[key] = (first === "at" ? rest.slice(1) : rest).join(" ");
    }
  }
  return report;
}

/** Gives the numbers of a list of the program's. */
export function numbersIn(list) {
  return !list || list === "none" ? [] : list.split(" ").map(Number);
}

/** Gives a fraction of the program's as a number that floating point has, for pictures and for sorting. */
export function asNumber(fraction) {
  const [num, den = "1"] = fraction.split("/");
  const [a, b] = [BigInt(num), BigInt(den)];
  return Number((a * 10n ** 15n) / b) / 1e15;
}

/** Gives a decimal text as a whole number at so many places. */
function scaled(text, places) {
  const [whole, part = ""] = text.trim().split(".");
  return BigInt(whole + part.slice(0, places).padEnd(places, "0"));
}

export const placesOf = (text) => (text.trim().split(".")[1] ?? "").replace(/0+$/, "").length;

/** Prices and quantities of a table, as whole numbers, and what each bundle costs at each observation's prices. */
export class Purchases {
  constructor(records) {
    const header = records[0].map((it) => it.trim());
    const column = (name) => header.indexOf(name);
    this.goods = header.filter((it) => it.startsWith("p_")).map((it) => it.slice(2));
    const rows = records.slice(1);
    const all = (mark) => this.goods.map((it) => column(`${mark}_${it}`));
    const most = (columns, of) => Math.max(0, ...rows.flatMap((row) => columns.map((at) => of(row[at] ?? ""))));
    [this.pricePlaces, this.quantityPlaces] = [most(all("p"), placesOf), most(all("q"), placesOf)];
    // As many as the file has, also where they are zeros.
    const written = (text) => (text.trim().split(".")[1] ?? "").length;
    this.writtenPlaces = [most(all("p"), written), most(all("q"), written)];
    this.prices = rows.map((row) => all("p").map((at) => scaled(row[at], this.pricePlaces)));
    this.quantities = rows.map((row) => all("q").map((at) => scaled(row[at], this.quantityPlaces)));
    this.labels = rows.map((row, at) => (column("obs") < 0 ? "" : row[column("obs")].trim()) || String(at + 1));
    this.levels = column("e") < 0 ? null : rows.map((row) => Number(row[column("e")]));
  }

  get count() {
    return this.prices.length;
  }

  cost(at, bundle) {
    return this.prices[at].reduce((sum, price, good) => sum + price * this.quantities[bundle][good], 0n);
  }

  /** An amount of money as a decimal text, where it is counted in so many places more. */
  money(amount, more = 0) {
    return decimal(amount, this.pricePlaces + this.quantityPlaces + more);
  }

  /** The unit of money in which Afriat's numbers count, in words: with levels a thousandth of that of the costs. */
  get unit() {
    return this.#unitOf(this.levels ? 3 : 0);
  }

  /** The unit of money in which costs count, in words. */
  get unitOfCosts() {
    return this.#unitOf(0);
  }

  #unitOf(more) {
    const places = this.pricePlaces + this.quantityPlaces + more;
    return places ? `in units of ${decimal(1n, places)} of money` : "in units of money";
  }
}

/** Writes a whole number at so many places as a decimal. */
export function decimal(amount, places) {
  const sign = amount < 0n ? "−" : "";
  const digits = (amount < 0n ? -amount : amount).toString().padStart(places + 1, "0");
  const [whole, part] = [
    digits.slice(0, digits.length - places),
    digits.slice(digits.length - places).replace(/0+$/, ""),
  ];
  return sign + whole + (part ? `.${part}` : "");
}

/** Writes a fraction of the program's, in units of so many places, as one in whole units, in lowest terms. */
export function inUnits(fraction, places) {
  const [num, den = "1"] = fraction.split("/");
  const [a, b] = [BigInt(num), BigInt(den) * 10n ** BigInt(places)];
  let [common, rest] = [a, b];
  while (rest !== 0n) [common, rest] = [rest, common % rest];
  return b === common ? String(a / b) : `${a / common}/${b / common}`;
}

/** A decimal of a fraction, rounded down to so many places, so that what is below 1 reads below 1. */
export function decimalOf(fraction, places = 4) {
  const [num, den = "1"] = fraction.split("/");
  return decimal((BigInt(num) * 10n ** BigInt(places)) / BigInt(den), places);
}

/** The decimal of a fraction to stand behind it; nothing behind a whole number. */
export function about(fraction) {
  const [num, den] = fraction.split("/");
  if (!den) return "";
  const isExact = (BigInt(num) * 10_000n) % BigInt(den) === 0n;
  return ` (${isExact ? "" : "about "}${decimalOf(fraction)})`;
}

/** A fraction with its decimal behind it. */
export const withDecimal = (fraction) => fraction + about(fraction);

/** Whether a fraction is at least num/den, exactly. */
export function isAtLeast(fraction, num, den) {
  const [a, b = "1"] = fraction.split("/");
  return BigInt(a) * BigInt(den) >= BigInt(num) * BigInt(b);
}

/** Joins texts as a sentence does. */
export const listed = (texts) =>
  texts.length < 2 ? texts.join("") : `${texts.slice(0, -1).join(", ")} and ${texts.at(-1)}`;

/** A closed walk in words. */
export function walkInWords(cycle) {
  return cycle.length === 2
    ? `observation ${cycle[0]} by itself`
    : `from observation ${cycle[0]} to ${listed(cycle.slice(1, -1).map(String))}, and back to ${cycle.at(-1)}`;
}

/** The steps of a closed walk as sentences. */
export function cycleSentences(cycle, table) {
  const name = (at) =>
    table.labels[at - 1] === String(at) ? `observation ${at}` : `observation ${at} (${table.labels[at - 1]})`;
  return cycle.slice(1).map((to, at) => {
    const from = cycle[at];
    const [paid, other] = [table.cost(from - 1, from - 1), table.cost(from - 1, to - 1)];
    const counts = table.levels ? table.levels[from - 1] : 1000;
    const held = table.levels ? `, of which ${table.money(paid * BigInt(counts), 3)} counts` : "";
    return (
      `In ${name(from)} the chosen bundle cost ${table.money(paid)}${held}. The bundle of observation ${to} would ` +
      `have cost ${table.money(other)}.`
    );
  });
}

/** What a closed walk multiplies by, step by step, and together: the costs of the next bundle over what was paid. */
export function productSentences(cycle, table) {
  let [num, den] = [1n, 1n];
  const steps = cycle.slice(1).map((to, at) => {
    const from = cycle[at];
    const [paid, other] = [table.cost(from - 1, from - 1), table.cost(from - 1, to - 1)];
    [num, den] = [num * other, den * paid];
    return (
      `At the prices of observation ${from}, the bundle of observation ${to} costs ${table.money(other)} and the ` +
      `chosen bundle ${table.money(paid)}: the ratio is ${withDecimal(inUnits(`${other}/${paid}`, 0))}.`
    );
  });
  const together = inUnits(`${num}/${den}`, 0);
  const short = together.length < 60 ? withDecimal(together) : `about ${decimalOf(together, 6)}`;
  return [
    ...steps,
    `The product of the ratios along the cycle is ${short}. With homothetic preferences, no cycle has a product ` +
      "below 1.",
  ];
}

/** What a closed walk adds up to, step by step, and together: the costs of the next bundle less what was paid. */
export function sumSentences(cycle, table) {
  let sum = 0n;
  const steps = cycle.slice(1).map((to, at) => {
    const from = cycle[at];
    const more = table.cost(from - 1, to - 1) - table.cost(from - 1, from - 1);
    sum += more;
    return (
      `At the prices of observation ${from}, the bundle of observation ${to} costs ` +
      `${table.money(more < 0n ? -more : more)} ${more < 0n ? "less" : "more"} than the chosen bundle.`
    );
  });
  return [
    ...steps,
    `The sum of the differences along the cycle is ${table.money(sum)}. With quasilinear utility, no cycle has a sum ` +
      "below 0.",
  ];
}

/** What each fault means, and what to do; of a number, with the cell where it should be. */
export function meansOf(fault, place = null) {
  if (fault === "BadNumber" && place?.record && place.column && !place.cell.trim()) {
    return (
      "The cell is empty, and no value is guessed. If the observation is missing, delete its row. If nothing of the " +
      "good was bought, write 0."
    );
  }
  if (fault === "TooManyRecords") {
    const also = "If the rows are those of many units, choose the column that identifies them.";
    return `${sentenceOf("fault", fault)} ${also}`;
  }
  return sentenceOf("fault", fault);
}

// Names by which people may mean `n`, how many people made a choice.
const COUNTS = ["share", "shares", "count", "counts", "freq", "frequency", "weight", "weights"];
const FROM_SHARES = "If you have shares, multiply them by 1000, or by another power of 10, and round them.";

/**
 * What to do about a fault of a file of choices whose column `n` is missing, has another name or has shares; nothing
 * where the fault is another. `header` has the names of the file's columns.
 */
export function countsMean(fault, place, header) {
  if (fault === "BadNumber" && place.name === "n" && /^0*[.]0*[1-9]/.test(place.cell.trim())) {
    return `This is a count, so it is an integer. ${FROM_SHARES}`;
  }
  if (header.includes("n")) return "";
  if (fault === "BadHeader" && COUNTS.includes(place.name.toLowerCase())) {
    return (
      `The column ${place.name} is not read. Name it n if its integers say how many people made the choice. ` +
      `${FROM_SHARES} If each row is one person's choice, name the column n, and write 1 in each row.`
    );
  }
  return fault === "Unpaired" && !place.column
    ? "The column n is missing: how many people made the choice. If each row is one person's choice, write 1 there."
    : "";
}

/** What is told of a refused file: its name, fault, record, column, and what it means. */
export function parseFault(told) {
  // What the program adds to its own line is said here by the catalogue.
  const own = told.replace(/^(?:hint|note): .*\n/gm, "");
  const it = /^rp(?:-panel|-wide)?: (?:([^]*?): )?([A-Z]\w+)((?: [a-z]+ \d+)*)\n$/.exec(own);
  if (!it) return null;
  const place = (word) => Number(new RegExp(`${word} (\\d+)`).exec(it[3])?.[1] ?? 0);
  return {
    file: it[1] ?? "",
    fault: it[2],
    record: place("record"),
    column: place("column"),
    means: meansOf(it[2]),
  };
}

/**
 * What choices spent of the budgets that were offered, where the prices of a table are the intercepts of two goods
 * exchanged. The verdicts are about what the chosen bundles cost; this is a report about the file's own columns, and no
 * part of them: the share x/i_x + y/i_y of each choice, and whether rounding to the decimal places of the file explains
 * that it is not 1.
 */
export function offered(table) {
  const [lines, places] = table.writtenPlaces.map((it) => 10n ** BigInt(it));
  const more = (kept, side) => 2n * 10n ** BigInt(table.writtenPlaces[side] - kept);
  const [ofLine, ofBundle] = [more(table.pricePlaces, 0), more(table.quantityPlaces, 1)];
  const rows = table.prices.map(([second, first], at) => {
    // In halves of the last decimal place, so that what is rounded lies one unit to either side.
    const [a, b] = [first * ofLine, second * ofLine];
    const [x, y] = table.quantities[at].map((it) => it * ofBundle);
    const less = (it) => (it > 0n ? it - 1n : 0n);
    const most = [((x + 1n) * (b - 1n) + (y + 1n) * (a - 1n)) * lines, (a - 1n) * (b - 1n) * places];
    const least = [(less(x) * (b + 1n) + less(y) * (a + 1n)) * lines, (a + 1n) * (b + 1n) * places];
    return {
      at,
      share: [(x * b + y * a) * lines, a * b * places],
      isBelow: a > 1n && b > 1n && most[0] < most[1],
      isOver: least[0] > least[1],
    };
  });
  const least = rows.reduce((one, it) => (it.share[0] * one.share[1] < one.share[0] * it.share[1] ? it : one));
  return { rows: rows.length, below: rows.filter((it) => it.isBelow), over: rows.filter((it) => it.isOver), least };
}

/** The same in words; `head` is there where a choice costs more than was offered. */
export function offeredSays(table) {
  const { rows, below, over, least } = offered(table);
  // To four places, rounded down, or up.
  const share = ([num, den], up = 0n) => {
    const text = ((num * 10_000n + up * (den - 1n)) / den).toString().padStart(5, "0");
    return `${text.slice(0, -4)}.${text.slice(-4)}`;
  };
  if (over.length) {
    const [first] = over;
    const [second, one] = table.prices[first.at].map((it) => decimal(BigInt(it), table.pricePlaces));
    const amounts = table.quantities[first.at].map((it) => decimal(BigInt(it), table.quantityPlaces));
    const line = `intercepts ${one} and ${second}, choice ${amounts.join(" and ")}`;
    const others = over.length > 1 ? ` So do ${over.length - 1} other choices.` : "";
    return {
      head: `Observation ${table.labels[first.at]} (${line}) costs ${share(first.share, 1n)} of the offered budget.`,
      says: `That is more than rounding explains.${others} Correct the file. If no line was offered, give prices.`,
    };
  }
  const off = below.length
    ? `${below.length} of ${rows} choices spent less than was offered by more than rounding`
    : `all ${rows} choices lie on their lines, within rounding`;
  const where = `observation ${table.labels[least.at]}`;
  return { says: `Offered budgets: ${off}; minimum share ${share(least.share)}, ${where}.` };
}
