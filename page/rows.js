/** The table that the call of panels writes of a long file: the words that it is asked by, and its rows. */
import { meansOf } from "./reports.js";
import { forSpreadsheet, parseRecords, placeInWords } from "./sheets.js";

export const COLUMNS = [
  "household",
  "observations",
  "goods",
  "garp",
  "efficiency",
  "efficiency_floor",
  "attained",
  "homothetic",
  "quasilinear",
  "pump",
  "pump_floor",
  "power",
  "fault",
  "record",
  "column",
];
const SHARE = "[0-9]+(?:/[0-9]+)?";
const VERDICTS = `[0-9]+,[0-9]+,(?:holds|violated),${SHARE},[0-9]+[.][0-9]{6},(?:yes|no),` +
  "(?:holds|violated|withheld),(?:holds|violated),,";
// The faults of a record that has no unit.
const OF_IDS = ["NoId", "LongId"];

/**
 * The words of the call over a long file; `power` has how many behaviours are drawn on each household's budgets, and
 * from which seed, where that is asked.
 */
export function panelWords(power = null) {
  const drawn = power ? ["--power", String(power.draws), String(power.seed)] : [];
  return ["long.csv", "--id", "household", ...drawn, "--wide"];
}

/** What stands between a household and its fault, of a row with verdicts. */
const verdictsBy = (power) => new RegExp(`^${VERDICTS},${power ? `[0-9]+/${power.draws}` : ""}$`);

/**
 * The rows of a table that the call wrote, by column: of these households, and then of so many records of none, with
 * the power where that was asked. What is any other table, or none, is no answer.
 */
export function rowsOf(output, { households, unnamed }, power = null) {
  const [names, ...records] = parseRecords(output, ",");
  const isVerdicts = verdictsBy(power);
  const isRow = (fields) => {
    const [verdicts, fault] = [fields.slice(1, 12).join(","), fields[12]];
    return fields.length === COLUMNS.length && (fault ? /^,*$/ : isVerdicts).test(verdicts);
  };
  const ids = [...households, ...Array(unnamed).fill("")];
  const isTold = (id, at) => records[at][0] === id && (id !== "" || OF_IDS.includes(records[at][12]));
  const isTable = names?.join() === COLUMNS.join() && records.length === ids.length;
  if (!isTable || !records.every(isRow) || !ids.every(isTold)) {
    throw new Error("the program gave no table of these units");
  }
  return records.map((fields) => Object.fromEntries(COLUMNS.map((it, at) => [it, fields[at]])));
}

/** Asks about the households of a long file, as one of `longFiles` has them; gives its rows. */
export async function askedRows(client, file, power = null) {
  const { status, output, told } = await client.households(panelWords(power), file.bytes);
  if (status !== 0) throw new Error(told.trim() || `the program ended with status ${status}`);
  return rowsOf(output, file, power);
}

/**
 * A row as the page has it: its fault at its place in the file, whose records have these numbers, and as `told` in
 * words; `place` gives the place in the file of a column of the long file.
 */
export function rowAt(row, numbers, place) {
  if (!row.fault) return { ...row, told: "" };
  const record = row.record ? numbers[Number(row.record) - 1] : 0;
  const at = place({ record, column: Number(row.column) });
  const told = `${row.fault}${placeInWords(at)}. ${meansOf(row.fault, at)}`;
  const text = (number) => (number ? String(number) : "");
  return { ...row, record: text(record), column: text(at.column), told };
}

/** Columns with further ones before those of an error. */
export const withColumns = (columns, more) => columns.flatMap((it) => (it === "fault" ? [...more, it] : [it]));

/**
 * The records of a table for a file, with further columns where they were asked, under the name that the user's column
 * of ids has: a spreadsheet takes no id of it for a formula.
 */
export function tableRecords(rows, name = COLUMNS[0], more = []) {
  const columns = withColumns(COLUMNS, more);
  const field = (row, it) => (it === "household" ? forSpreadsheet(row[it]) : row[it]);
  return [[name, ...columns.slice(1)], ...rows.map((row) => columns.map((it) => field(row, it)))];
}
