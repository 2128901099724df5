/**
 * Files of numbers as people have them: what of their form the program does not take is found and named, with the exact
 * change that is offered. Nothing is changed before it is asked for.
 */
import { limit } from "./facts.js";

/**
 * Gives the records of a text with this mark between fields, a quoted field taken as one; each with its line's number.
 */
export function parseRecords(text, mark) {
  const records = [];
  let [fields, field, quoted, started, isQuoted] = [[], "", false, false, false];
  const endField = () => {
    fields.push(field);
    [field, started] = ["", false];
  };
  const endRecord = () => {
    endField();
    if (fields.length > 1 || fields[0] !== "" || isQuoted) records.push(fields);
    [fields, isQuoted] = [[], false];
  };
  for (let at = 0; at < text.length; at++) {
    const it = text[at];
    if (quoted) {
      if (it !== '"') field += it;
      else if (text[at + 1] === '"') field += text[at++];
      else quoted = false;
    } else if (it === '"' && !started && field === "") {
      [quoted, started, isQuoted] = [true, true, true];
    } else if (it === mark) {
      endField();
    } else if (it === "\n" || it === "\r") {
      if (it === "\r" && text[at + 1] === "\n") at += 1;
      endRecord();
    } else {
      field += it;
    }
  }
  if (field !== "" || fields.length || started) endRecord();
  return records;
}

/** Writes records as the program reads them. */
export function writeRecords(records) {
  const written = (it) => (/[",\n\r]/.test(it) ? `"${it.replaceAll('"', '""')}"` : it);
  const line = (fields) => (fields.length === 1 && fields[0] === "" ? '""' : fields.map(written).join(","));
  return records.map((fields) => `${line(fields)}\n`).join("");
}

/** An id as a spreadsheet takes it for a text, and never for a formula. */
export const forSpreadsheet = (id) => (/^[=+\-@]/.test(id) ? `'${id}` : id);

/** A text without the blanks round it, as the program takes a name and an id. */
export const withoutBlanks = (text) => text.replace(/^[ \t]+|[ \t]+$/g, "");

/** The first record of another length than the names of columns, from 1, and how many fields it has; or nothing. */
export function raggedRecord(records) {
  const record = records.findIndex((fields) => fields.length !== records[0].length);
  return record < 0 ? null : { record, fields: records[record].length, names: records[0].length };
}

/** The mark between fields that the line of names suggests. */
function markOf(text) {
  const head = text.split(/\r?\n|\r/, 1)[0];
  const counts = [",", ";", "\t"].map((it) => [head.split(it).length - 1, it]);
  counts.sort((a, b) => b[0] - a[0]);
  return counts[0][0] ? counts[0][1] : ",";
}

// Changes of which one alone can be made.
const READINGS = [["decimals", "thousands"], ["points as decimals", "points as thousands"]];
const MARK_NAMES = { ";": "semicolons", "\t": "tabs" };
const DECIMAL_COMMA = /^\s*\d+,\d+\s*$/;
const THOUSANDS_COMMA = /^\s*\d{1,3}(,\d{3})+\s*$/;
const POINT = /^\s*\d+(\.\d+)+(,\d+)?\s*$/;
const THOUSANDS_POINT = /^\s*\d{1,3}(\.\d{3})+(,\d+)?\s*$/;
const MONTH = "(jan|feb|mar|apr|may|jun|jul|aug|sep|oct|nov|dec)[a-z]*";
const DATE = new RegExp(
  `^\\s*(\\d{4}-\\d{1,2}-\\d{1,2}|\\d{1,2}[./]\\d{1,2}[./]\\d{2,4}|\\d{1,2}[- ]${MONTH})\\s*$`,
  "i",
);

export const bytesOf = (text) => new TextEncoder().encode(text);

/** Gives the text of a file, and how its bytes were read where that is not as UTF-8. */
export function decodeFile(bytes) {
  if (bytes[0] === 0xff && bytes[1] === 0xfe) {
    return { text: new TextDecoder("utf-16le").decode(bytes), coding: "UTF-16" };
  }
  if (bytes[0] === 0xfe && bytes[1] === 0xff) {
    return { text: new TextDecoder("utf-16be").decode(bytes), coding: "UTF-16" };
  }
  try {
    return { text: new TextDecoder("utf-8", { fatal: true }).decode(bytes), coding: null };
  } catch {
    return { text: new TextDecoder("windows-1252").decode(bytes), coding: "Windows-1252" };
  }
}

// Blanks, ends of lines, and the bytes of a byte-order mark.
const NOTHING = new Set([0x09, 0x0a, 0x0d, 0x20, 0xef, 0xbb, 0xbf]);

/** What a file is that is no table, and what to do; nothing where it may be one. */
export function otherThanText(bytes) {
  const first = bytes.findIndex((it) => !NOTHING.has(it));
  if (first < 0) return "This file is empty: it has no line of column names. Take the file that has the data.";
  if (bytes[first] === 0x7b || bytes[first] === 0x5b) {
    return new TextDecoder().decode(bytes.subarray(0, 2 ** 24)).includes('"items"')
      ? "This is a certificate, not a table. Take the table that it is about. Then open Check a certificate below " +
        "the results, and choose this file there."
      : "This is JSON, not a table. Save the numbers as CSV, and take that.";
  }
  const begins = (...own) => own.every((it, at) => bytes[at] === it);
  if (begins(0x50, 0x4b, 3, 4) || begins(0xd0, 0xcf, 0x11, 0xe0)) {
    return "This is a workbook, or another packed file, and no text. In the spreadsheet save the sheet as CSV, and " +
      "take that.";
  }
  if (begins(0x25, 0x50, 0x44, 0x46)) return "This is a PDF, and no text. Save the numbers as CSV, and take that.";
  return "";
}

/** A file with what was found of its form, and which of the offered changes are made. */
export class Sheet {
  constructor(name, bytes) {
    this.name = name;
    this.bytes = bytes;
    const { text, coding } = decodeFile(bytes);
    this.text = text;
    this.coding = coding;
    this.made = new Set();
    this.mark = markOf(text);
    this.hasMark = bytes[0] === 0xef && bytes[1] === 0xbb && bytes[2] === 0xbf;
  }

  /**
   * The records as they stand, before any change but that of the mark between fields, which only tells fields apart.
   */
  get records() {
    this.parsed ??= parseRecords(this.text, this.mark);
    return this.parsed;
  }

  get header() {
    return (this.records[0] ?? []).map((it) => it.trim());
  }

  /** The cells of numbers that match a pattern: the record, the column and the text of each, records counted from 1. */
  cells(pattern) {
    const found = [];
    this.records.slice(1).forEach(
      (fields, row) => fields.forEach((it, column) => pattern.test(it) && found.push([row + 1, column, it.trim()])),
    );
    return found;
  }

  /** What was found: `{ key, says, change }`; with a change it is offered, without one only told. */
  findings() {
    const found = [];
    if (this.hasMark) {
      found.push({ key: "mark", says: "The file begins with a byte-order mark. The program skips it." });
    }
    if (this.coding) {
      found.push(
        {
          key: "coding",
          says: `The bytes are no UTF-8; as ${this.coding} they are text.`,
          change: `write the file in UTF-8, read as ${this.coding}`,
        },
      );
    }
    if (this.mark !== ",") {
      found.push(
        {
          key: "separator",
          says: `The fields are separated by ${MARK_NAMES[this.mark]}.`,
          change: "write commas between the fields",
        },
      );
    }
    const decimals = this.cells(DECIMAL_COMMA);
    const thousands = decimals.length > 0 && decimals.every(([, , it]) => THOUSANDS_COMMA.test(it));
    if (decimals.length) {
      const [row, , it] = decimals[0];
      const many = decimals.length === 1 ? "One number has" : `${decimals.length} numbers have`;
      const says = `${many} a comma, the first in record ${row}: ${it}.`;
      const doubt = thousands
        ? " With three digits behind it, it may as well be a mark of thousands: say which it is."
        : "";
      found.push(
        {
          key: "decimals",
          says: says + doubt,
          change: `take the comma as the decimal mark: ${it} becomes ${it.replace(",", ".")}`,
        },
      );
      if (thousands) {
        found.push(
          {
            key: "thousands",
            says: "",
            change: `take the comma as a mark of thousands: ${it} becomes ${it.replaceAll(",", "")}`,
          },
        );
      }
    }
    const points = decimals.length && this.mark !== "," ? this.cells(POINT) : [];
    if (points.length) {
      const [row, , it] = points[0];
      const isOpen = points.every(([, , own]) => THOUSANDS_POINT.test(own));
      found.push(
        {
          key: "points as decimals",
          says:
            `Beside the commas ${points.length === 1 ? "a number has" : "numbers have"} a point, the first in record ` +
            `${row}: ${it}. It may be the decimal mark too, or a mark of thousands: say which it is.`,
          change: `take the point as the decimal mark: ${it} stays`,
        },
      );
      if (isOpen) {
        const whole = it.replaceAll(".", "").replace(",", ".");
        found.push(
          {
            key: "points as thousands",
            says: "",
            change: `take the point as a mark of thousands: ${it} becomes ${whole}`,
          },
        );
      }
    }
    const dates = this.cells(DATE);
    if (dates.length) {
      const [row, column, it] = dates[0];
      const how =
        "Where that column has numbers, a spreadsheet may have made dates of them; go back to the numbers. As a " +
        "label it does no harm.";
      found.push(
        {
          key: "dates",
          says:
            `The column ${this.header[column] ?? column + 1} has dates, the first in row ${row}: ${it}. ` +
            `${how}`,
        },
      );
    }
    return found;
  }

  /** Makes or takes back a change. Of the two readings of a comma, or of a point, only one holds. */
  toggle(key, isOn) {
    if (isOn) this.made.add(key);
    else this.made.delete(key);
    const pair = READINGS.find((it) => it.includes(key));
    if (isOn && pair) this.made.delete(pair.find((it) => it !== key));
  }

  /** The changes that are offered and neither made nor excluded by another one. */
  get open() {
    const isMade = (key) => (READINGS.find((it) => it.includes(key)) ?? [key]).some((it) => this.made.has(it));
    return this.findings().filter((it) => it.change && !isMade(it.key));
  }

  /**
   * What to do about a fault, where changes are open. `means` is what the fault means; with another mark between fields
   * the program did not get the columns that the fault is about.
   */
  advice(means) {
    const open = this.open;
    if (!open.length) return means;
    const says = open.length === 1
      ? `A change that is offered for this file is not ticked: ${open[0].change}. Tick it, and run again.`
      : `${open.length} changes that are offered for this file are not ticked. Tick them, and run again.`;
    return open.some((it) => it.key === "separator") ? says : `${says} ${means}`;
  }

  /** What has to be said before the file can be taken: words, or nothing. */
  lacks() {
    const open = this.findings().some((it) => it.key === "points as decimals");
    const isSaid = this.made.has("points as decimals") || this.made.has("points as thousands");
    return open && !isSaid ? "Say what the point in the numbers is." : "";
  }

  /** The records with the changes that were asked for. */
  changed() {
    const change = (it) => {
      if (this.made.has("points as thousands") && THOUSANDS_POINT.test(it)) {
        return it.replaceAll(".", "").replace(",", ".");
      }
      if (this.made.has("decimals") && DECIMAL_COMMA.test(it)) return it.replace(",", ".");
      if (this.made.has("thousands") && THOUSANDS_COMMA.test(it)) return it.replaceAll(",", "");
      return it;
    };
    return this.records.map((fields, row) => (row ? fields.map(change) : fields));
  }

  /** The bytes for the program: those of the file where nothing was changed. */
  bytesFor(mapping) {
    const isKept = this.made.size === 0 && (!mapping || mapping.isIdentity(this.header));
    if (isKept) return this.bytes;
    const separated = this.mark === "," || this.made.has("separator") ? this.changed() : null;
    if (!separated) return this.bytes;
    return bytesOf(writeRecords(mapping ? mapping.apply(separated) : separated));
  }
}

/** What a column may be. `good` says that it wants a name of a good. */
export const ROLES = [
  { key: "price", says: "price of the good", good: true },
  { key: "quantity", says: "quantity of the good", good: true },
  { key: "most", says: "intercept: the most of this good that the budget buys", good: true },
  { key: "level", says: "efficiency level, in thousandths (e)" },
  { key: "label", says: "label of the observation (obs)" },
  { key: "household", says: "id of a subject or household" },
  { key: "out", says: "leave it out" },
  { key: "same", says: "keep as it is" },
  { key: "open", says: "choose what it is" },
];

const GUESSES = [
  [/^(?:prices?|p)(?:[_. -]+|(?=\d))(.+)$/i, "price"],
  [/^(?:quantity|quantities|qty|q|x)(?:[_. -]+|(?=\d))(.+)$/i, "quantity"],
  [/^(.+?)[_. -](?:p|price)$/i, "price"],
  [/^(.+?)[_. -](?:q|x|qty|quantity)$/i, "quantity"],
];
const HOUSEHOLD = /^(id|hh|hhid|household|household_id|subject|subject_id|person|participant|respondent|panel_id)$/i;
const LABEL = /^(round|period|year|wave|month|week|trial|decision)$/i;
const EXTREME = /^(?:(?:max|most|intercept|min|least)[_. -]+(.+)|(.+?)[_. -]+(?:max|most|intercept|min|least))$/i;

/** The good of which a column has the most that the budget buys, by its name; nothing where it has none. */
function mostOf(name) {
  // As the clients have it: i_NAME.
  if (/^i_./.test(name)) return name.slice(2);
  const found = EXTREME.exec(name);
  return found && !/min|least/i.test(name) ? (found[1] ?? found[2]) : null;
}

/** What a name that the program does not know suggests. */
function guessed(name) {
  if (HOUSEHOLD.test(name)) return { role: "household", good: "" };
  if (LABEL.test(name)) return { role: "label", good: "" };
  if (EXTREME.test(name) || /^i_./.test(name)) return { role: "out", good: "" };
  const guess = GUESSES.map(([pattern, role]) => ({ role, good: pattern.exec(name)?.[1] })).find((it) => it.good);
  return guess ?? { role: "out", good: "" };
}

/** Whether each value of a column stands in one record: it numbers the records, or each household has one. */
export function numbersRecords(records, column) {
  const values = records.slice(1).map((fields) => (fields[column] ?? "").trim());
  return values.length > 1 && new Set(values).size === values.length;
}

/** Which role each column has, and for which good. */
export class Mapping {
  constructor(roles) {
    this.roles = roles;
  }

  /**
   * What the names suggest; a name that the program knows stands as it is. The two intercepts of an experiment's
   * budgets
   * are suggested where each of both goods has its quantity too.
   */
  static suggested(header, records = []) {
    const roles = header.map((name) => {
      if (/^[pq]_./.test(name) || name === "e" || name === "obs") return { role: "same", good: "" };
      return guessed(name);
    });
    const intercepts = header.flatMap((name, at) => (mostOf(name) ? [{ at, good: mostOf(name) }] : []));
    const quantity = (good) => header.findIndex((name, at) =>
      name === good || name === `q_${good}` || (roles[at].role === "quantity" && roles[at].good === good));
    const places = intercepts.map(({ good }) => quantity(good));
    if (intercepts.length === 2 && places.every((at) => at >= 0) && !roles.some((it) => it.role === "price")) {
      intercepts.forEach(({ at, good }, number) => {
        roles[at] = { role: "most", good };
        if (header[places[number]] !== `q_${good}`) roles[places[number]] = { role: "quantity", good };
      });
    }
    if (roles.filter((it) => it.role === "label").length > 1 || header.includes("obs")) {
      roles.forEach((it) => it.role === "label" && (it.role = "out"));
    }
    const household = roles.findIndex((it) => it.role === "household");
    if (household >= 0 && numbersRecords(records, household)) roles[household] = { role: "open", good: "" };
    return new Mapping(roles);
  }

  static read(text, header) {
    const saved = JSON.parse(text);
    if (!Array.isArray(saved.columns)) throw new Error("no columns");
    const by = new Map(saved.columns.map((it) => [it.column, it]));
    const known = (role) => (ROLES.some((it) => it.key === role) ? role : "out");
    return new Mapping(
      header.map((name) => ({ role: known(by.get(name)?.role), good: String(by.get(name)?.good ?? "") })),
    );
  }

  write(header) {
    return JSON.stringify({ columns: header.map((column, at) => ({ column, ...this.roles[at] })) }, null, 2);
  }

  isIdentity(header) {
    return this.roles.length === header.length && this.roles.every((it) => it.role === "same");
  }

  get household() {
    return this.roles.findIndex((it) => it.role === "household");
  }

  /** The goods whose intercepts stand in the file, in the order of their columns. */
  get intercepts() {
    return this.roles.filter((it) => it.role === "most").map((it) => it.good);
  }

  /** Whether what is spent is in money of its own at each observation, as where intercepts are exchanged for prices. */
  get hasOwnMoney() {
    return this.intercepts.length > 0;
  }

  /**
   * The names of the columns for the program, none for a column that is left out. Of two goods the most that the budget
   * buys of one, taken as the price of the other, gives the budget line: x/a + y/b = 1 is b x + a y = a b.
   */
  names(header) {
    const other = (good) => this.intercepts.find((it) => it !== good);
    const name = {
      price: (good) => `p_${good}`,
      quantity: (good) => `q_${good}`,
      most: (good) => (this.intercepts.length === 2 && other(good) ? `p_${other(good)}` : undefined),
      level: () => "e",
      label: () => "obs",
    };
    return this.roles.map(({ role, good }, at) => (role === "same" ? header[at] : name[role]?.(good)));
  }

  /**
   * The columns that go to the program, by their places in the file. Of two intercepts the later comes first, so that
   * the
   * goods, whose prices they are the other way round, come in the order of the file.
   */
  get kept() {
    const kept = this.roles.flatMap((it, at) => (["out", "household", "open"].includes(it.role) ? [] : [at]));
    const lines = kept.filter((at) => this.roles[at].role === "most").reverse();
    return kept.map((at) => (this.roles[at].role === "most" ? lines.shift() : at));
  }

  apply(records) {
    const names = this.names(records[0].map((it) => it.trim()));
    const kept = this.kept;
    return [
      kept.map((at) => names[at]),
      ...records.slice(1).map((fields) => {
        if (fields.length === records[0].length) return kept.map((at) => fields[at]);
        // The program refuses a record of another length; so this has another than what it is given with, too.
        return fields.length === kept.length ? [...fields, ""] : fields;
      }),
    ];
  }
}

/** Tells what of a mapping keeps it from being a table: words, or nothing. */
export function lacksOf(mapping, header) {
  const open = mapping.roles.findIndex((it) => it.role === "open");
  if (open >= 0) {
    return (
      `Each value of the column ${header[open]} is in one row. If the column numbers the rows, they are one table: ` +
      "take it for the label, or leave it out. If it identifies units, each has one row, which cannot violate GARP."
    );
  }
  const ids = mapping.roles.filter((it) => it.role === "household");
  if (ids.length > 1) return "Two columns are the subject or household.";
  const names = mapping.names(header).filter(Boolean);
  const twice = names.find((it, at) => names.indexOf(it) !== at);
  if (twice) return `Two columns are ${twice}.`;
  if (mapping.hasOwnMoney && new Set(mapping.intercepts).size !== 2) {
    return "Intercepts are exchanged for prices where there are two goods, and each has its own: assign both.";
  }
  const goods = new Set(names.filter((it) => /^[pq]_/.test(it)).map((it) => it.slice(2)));
  if (!goods.size) return "No column is a price or a quantity yet.";
  for (const it of goods) {
    if (!names.includes(`p_${it}`)) return `The good ${it} has a quantity and no price.`;
    if (!names.includes(`q_${it}`)) return `The good ${it} has a price and no quantity.`;
  }
  return "";
}

/** Whether an id is one: not empty, and no longer than the program takes. */
const isId = (id) => id !== "" && bytesOf(id).length <= limit("long.household_bytes");

/**
 * The households of a long file in the order of first appearance, each with the numbers that its records have in the
 * file, and with its table; a record that has no id is no household's.
 */
export function splitHouseholds(records, mapping) {
  const parts = new Map();
  records.slice(1).forEach((fields, row) => {
    const household = withoutBlanks(fields[mapping.household] ?? "");
    if (!isId(household)) return;
    if (!parts.has(household)) parts.set(household, { rows: [records[0]], numbers: [] });
    parts.get(household).rows.push(fields);
    parts.get(household).numbers.push(row + 1);
  });
  return [...parts].map(([household, { rows, numbers }]) => ({
    household,
    numbers,
    get bytes() {
      return bytesOf(writeRecords(mapping.apply(rows)));
    },
  }));
}

// So many records are handed to the program at once, and of a household no more than show that it has too many.
export const RECORDS_AT_ONCE = 2000;
const deciding = () => limit("table.records") + 1;

/**
 * The long files that are asked about one after another, a household in one of them, and the records of none in the
 * last ones: the households of each, how many records are of none, the numbers of all its records in the file, and its
 * bytes.
 */
export function longFiles(records, mapping, households) {
  const named = new Set(households.flatMap((it) => it.numbers));
  const all = records.slice(1).map((_, row) => row + 1);
  const none = all.filter((it) => !named.has(it)).map((it) => ({ household: "", numbers: [it] }));
  const files = [];
  for (const it of [...households, ...none]) {
    const last = files.at(-1);
    const isOther = last && Boolean(last.parts[0].household) !== Boolean(it.household);
    if (!last || isOther || last.numbers.length >= RECORDS_AT_ONCE) files.push({ parts: [], numbers: [] });
    files.at(-1).parts.push(it);
    files.at(-1).numbers.push(...it.numbers.slice(0, deciding()));
  }
  const [names] = mapping.apply([records[0]]);
  return files.map(({ parts, numbers }) => ({
    households: parts.map((it) => it.household).filter(Boolean),
    unnamed: parts.filter((it) => !it.household).length,
    numbers,
    get bytes() {
      const rows = mapping.apply([records[0], ...numbers.map((it) => records[it])]).slice(1);
      const ids = numbers.map((it) => records[it][mapping.household]);
      return bytesOf(writeRecords([["household", ...names], ...rows.map((row, at) => [ids[at], ...row])]));
    },
  }));
}

/**
 * Where a fault of a table that was made of a file by a mapping stands in the file: its record and column, from 1, the
 * column's name and the cell's text; 0 and nothing where the fault has none. `numbers` are the records of the table.
 */
export function placeInFile(fault, records, mapping, numbers = null) {
  const record = fault.record ? (numbers ? (numbers[fault.record - 1] ?? 0) : fault.record) : 0;
  const isKept = !mapping || mapping.isIdentity(records[0].map((it) => it.trim()));
  const column = fault.column ? (isKept ? fault.column : (mapping.kept[fault.column - 1] ?? -1) + 1) : 0;
  const cell = record && column ? (records[record]?.[column - 1] ?? "") : "";
  return { record, column, name: column ? (records[0][column - 1] ?? "").trim() : "", cell };
}

/** The same in words. */
export function placeInWords({ record, column, name, cell }) {
  const parts = [record ? `record ${record}` : "", column ? `column ${column} (${name})` : ""];
  const where = parts.filter(Boolean).join(", ");
  return where ? ` at ${where}${record && column ? `: ${JSON.stringify(cell)}` : ""}` : "";
}

/** How many names of a header a kind of file has by the catalogue, less those that it has not. */
export function fitOf(header, { columns, optional }) {
  const known = [...columns, ...optional].map((it) => new RegExp(`^${it.replace("NAME", ".+")}$`));
  return header.reduce((sum, name) => sum + (known.some((it) => it.test(name)) ? 1 : -1), 0);
}
