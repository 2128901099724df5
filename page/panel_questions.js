/** Further questions on every unit of a panel, whose answers are kept as CSV. */
import { button, keepFile, labelled, make } from "./dom.js";
import { area, pricePlacesOf, question } from "./questions.js";
import { Purchases, decimalOf, inUnits, parseFault, parseReport } from "./reports.js";
import { WIDE_COLUMN, isWithheld } from "./says.js";
import { bytesOf, forSpreadsheet, parseRecords, placeInFile, placeInWords, writeRecords } from "./sheets.js";

const BOUND = new RegExp(
  "^(?:good|welfare prices .* observation) (\\d+) lower (\\S+|withheld \\d+) upper (\\S+|withheld \\d+)(?: at \\d+)?$",
);
const BOUND_COLUMNS = [
  "household",
  "status",
  "record",
  "of",
  "lower",
  "lower_decimal",
  "upper",
  "upper_decimal",
  "wide",
  "told",
];

/** A row for a file: a spreadsheet takes no id of it for a formula. */
const forSheet = ([household, ...rest]) => [forSpreadsheet(household), ...rest];

/** The bounds of each line of a report that has some. */
const boundsIn = (output) => output.split("\n").map((line) => BOUND.exec(line)).filter(Boolean);

/**
 * What a unit is answered at new prices, a row for each bound, in the units of the file: `of` is a good, or an
 * observation; `wide` names the bounds that `rp` itself withholds; `refusal` says why a unit is refused.
 */
export function boundRows(kind, answer, goods, pricePlaces, refusal = (text) => text.trim()) {
  const { household, status, output, told, stated } = answer;
  const none = (why, number) => [[household, String(number), "", "", "", "", "", "", "", why]];
  if (status !== 0) return none(refusal(told), status);
  const places = parseReport(output).size.quantities + (kind === "welfare" ? pricePlaces : 0);
  const units = (text) => {
    if (isWithheld(text)) return ["withheld", ""];
    const exact = inUnits(text, places);
    return [exact, decimalOf(exact, 6)];
  };
  const rows = [];
  const own = boundsIn(stated ?? output);
  const isWide = (text, other) => !isWithheld(text) && isWithheld(other);
  let record = 0;
  for (const line of output.split("\n")) {
    if (line.startsWith("demand ") || /^welfare .* observation 1 /.test(line)) record += 1;
    const bound = BOUND.exec(line);
    if (bound) {
      const of = kind === "demand" ? goods[Number(bound[1]) - 1] : bound[1];
      const rp = own[rows.length];
      const wide = ["", "", "lower", "upper"].filter((side, at) => side && isWide(bound[at], rp[at])).join(" ");
      rows.push([household, "0", String(record), of, ...units(bound[2]), ...units(bound[3]), wide, ""]);
    }
  }
  return rows.length ? rows : none("GARP is violated, so there are no bounds", 0);
}

/** A question on every unit at new prices, whose answers are kept as CSV. */
function panelQuestion(client, households, kind, says, field, { working, progress, tell, place: where, called }) {
  const explains =
    `The same new prices for all ${called.units}. ` +
    "Bounds are exact, in the units of the file, each with its decimal rounded down beside it. A unit that violates " +
    `GARP has no bounds. ${WIDE_COLUMN}`;
  return question(says, explains, [labelled("New prices as CSV", field)], async (place, isCurrent) => {
    const [rows, began] = [[], performance.now()];
    const typed = { name: "new prices", bytes: bytesOf(field.value) };
    const pricePlaces = pricePlacesOf(field.value);
    const goods = new Purchases(parseRecords(new TextDecoder().decode(households[0].bytes), ",")).goods;
    const numbers = new Map(households.map((it) => [it.household, it.numbers]));
    let done = 0;
    const refusal = (household) => (told) => {
      const fault = parseFault(told);
      if (!fault) return told.trim();
      const records = fault.file === typed.name ? parseRecords(field.value, ",") : null;
      const at = records ? placeInWords(placeInFile(fault, records, null)) : where(fault, numbers.get(household));
      return `${fault.fault}${at}. ${fault.means}`;
    };
    const told = (parts) => {
      done += parts.length;
      rows.push(...parts.flatMap((it) => boundRows(kind, it, goods, pricePlaces, refusal(it.household))));
      if (isCurrent()) progress(done, households.length, began, called.units);
    };
    await working(async () => {
      await client.panel([kind, "table.csv", typed.name], households, told, [typed]);
      if (isCurrent()) tell(`${households.length} ${called.units} at new prices: done.`);
    });
    const [bounded, refused] = [
      new Set(rows.filter((row) => row[3]).map((row) => row[0])),
      rows.find((row) => row[1] !== "0"),
    ];
    const first = refused ? ` The first with an error is ${refused[0]}: ${refused.at(-1)}` : "";
    const names = [called.name, ...BOUND_COLUMNS.slice(1)];
    const keep = button(
      "Keep the bounds as CSV",
      () => keepFile(`${kind}.csv`, writeRecords([names, ...rows.map(forSheet)]), "text/csv"),
    );
    place.replaceChildren(
      make(
        "p",
        {
          textContent:
            `${done} of ${households.length} ${called.units} done; ${bounded.size} of them have bounds.${first}`,
        },
      ),
      keep,
    );
  });
}

/**
 * The questions on a panel. `shows` has what tells of long work: `working`, `progress` and `tell`; `place`, which says
 * where in the file a unit's fault stands; and `called`, the name of a unit and of several.
 */
export function panelQuestions(client, households, shows) {
  const [names, ...rows] = parseRecords(new TextDecoder().decode(households[0].bytes), ",");
  const priced = names.flatMap((name, at) => (name.startsWith("p_") ? [at] : []));
  const of = (row) => priced.map((at) => row?.[at] ?? "");
  const [head, first] = [of(names).join(","), of(rows[0]).join(",")];
  return [
    panelQuestion(
      client,
      households,
      "demand",
      `Demand: what could each ${shows.called.name} choose at new prices?`,
      area(`${head},m\n${first},100\n`),
      shows,
    ),
    panelQuestion(
      client,
      households,
      "welfare",
      `Welfare: what would the old living standard of each ${shows.called.name} cost at new prices?`,
      area(`${head}\n${first}\n`),
      shows,
    ),
  ];
}
