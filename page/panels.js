/** A panel: a verdict for each unit, a table that sorts and filters, and the distribution of the index. */
import { tableAnswers } from "./answers.js";
import { HOW_POWER_DRAWS, drawBehaviours, shareInWords, sharesTable } from "./benchmark.js";
import { button, freshId, keepFile, labelled, make, numberField, say } from "./dom.js";
import { MOST_SEED } from "./draws.js";
import { limit, range } from "./facts.js";
import { FIT_COLUMNS, LACKS_FIT, fitFields, lacksFit } from "./fit.js";
import { indexPicture, fileOf } from "./pictures.js";
import { Purchases, asNumber } from "./reports.js";
import { COLUMNS, askedRows, rowAt, tableRecords, withColumns } from "./rows.js";
import { parseRecords, writeRecords } from "./sheets.js";

// How many rows stand on the page at once.
const MOST_ROWS = 500;
// What the page does not ask of each unit unasked.
const NOT_ASKED = ["pump", "pump_floor", "power"];
const FIT_MEANS =
  "Columns: numbers of pairs that violate each axiom; kept and kept_most, the bounds of the Houtman-Maks index (HM); " +
  "levels and squares, the bounds of Varian's index (AVI) by the mean and by the mean of squares; steps, the bounds " +
  "of the minimum cost index (MCI). Lower bounds are rounded down, and upper bounds up.";

const seconds = (from) => ((performance.now() - from) / 1000).toFixed(1);

export const purchasesOf = (bytes) =>
  new Purchases(parseRecords(new TextDecoder().decode(bytes).replace(/^\ufeff/, ""), ","));

/**
 * Shows a panel and answers it, by long files of some of its households. `shows` has what tells of long work, for the
 * run that the panel is of: `working`, `progress`, `tell`; `place` gives the place in the file of a fault.
 */
export class Panel {
  constructor(client, fitting, households, given) {
    const { files, shows, place, called, advice, hasOwnMoney = false, hasLevels = false } = given;
    // What a unit is called, and what several are: by the name of the user's column.
    [this.name, this.units] = [called.name, called.units];
    [this.client, this.households, this.shows, this.where] = [client, households, shows, place];
    // The client of goodness of fit, which keeps no other question waiting; what it has of each unit, by its id; and
    // the further columns that were asked.
    [this.fitting, this.fits, this.asked] = [fitting, new Map(), []];
    // What to do about a file whose changes are not all ticked, or nothing.
    [this.files, this.hasLevels, this.advice] = [files, hasLevels, advice];
    [this.rows, this.random, this.order, this.filter] = [[], [], { column: null, falls: false }, ""];
    // How many of the random behaviours violate GARP.
    this.failing = 0;
    [this.hasOwnMoney, this.opening, this.took] = [hasOwnMoney, 0, ""];
    this.count = files.reduce((sum, it) => sum + it.households.length + it.unnamed, 0);
    this.columns = this.#columnsWith([]);
    this.summary = make("p", { id: "panel-summary" });
    this.figure = make("figure", { id: "panel-picture" });
    this.shares = make("div", { id: "panel-shares" });
    this.body = make("tbody");
    this.note = make("p", { className: "note" });
    this.opened = make("section", { id: "panel-household", attrs: { "aria-live": "polite" } });
    const more = hasLevels ? [] : [...this.#powers(), ...this.#fitAsk()];
    const draws = make("div", {}, this.shares, this.#draws(), ...more);
    const beside = make("div", { className: "beside" }, this.figure, draws);
    this.place = make("div", {}, this.summary, beside, this.#tools(), this.#table(), this.note, this.opened);
  }

  /** Answers each unit; `began` is when that was asked for. */
  async run(began) {
    try {
      for await (const rows of this.#answers(began)) {
        this.rows.push(...rows);
        this.show(false);
      }
    } finally {
      this.took = ` in ${seconds(began)} s`;
      this.show(true);
    }
    await this.#drawRandom(this.behaviours.value, this.seed.value);
  }

  /** The rows of one file after another, with the power where that is asked. */
  async *#answers(began, power = null) {
    let done = 0;
    for (const file of this.files) {
      const rows = (await askedRows(this.client, file, power)).map((it) => rowAt(it, file.numbers, this.where));
      done += rows.length;
      this.shows.progress(done, this.count, began, this.units);
      yield rows.map((it) => this.#taken(it));
    }
  }

  /** Answers each unit anew, with the power of the axiom on its budgets beside its verdicts. */
  async #askPower(power) {
    const rows = [];
    for await (const some of this.#answers(performance.now(), power)) rows.push(...some);
    this.rows = rows.map((it) => this.#fitted(it));
    this.#addColumns(["power"]);
    this.shows.tell(`The power of each unit, by ${power.draws} draws from the seed ${power.seed}: done.`);
  }

  /** Goodness of fit of each unit that was answered, for the columns of all of them. */
  async #askFit() {
    const answered = new Set(this.rows.filter((it) => !it.fault).map((it) => it.household));
    const [given, began] = [this.households.filter((it) => answered.has(it.household)), performance.now()];
    let [done, failed, isLacking] = [0, 0, false];
    const taken = (parts) => {
      isLacking ||= parts.some(lacksFit);
      parts.forEach((it) => this.fits.set(it.household, fitFields(it, this.hasOwnMoney)));
      done += parts.length;
      failed += parts.filter((it) => it.status !== 0).length;
      this.shows.progress(done, given.length, began, this.units);
    };
    try {
      await this.fitting.panel(["fit", "table.csv"], given, taken, [], "rp-wide");
    } finally {
      if (done && !isLacking) this.#addColumns(this.#fitColumns());
    }
    const errors = failed ? `, ${failed} with errors` : "";
    this.shows.tell(isLacking ? LACKS_FIT : `Goodness of fit of ${done - failed} ${this.units}${errors}: done.`);
  }

  /** Those of its columns that are told: where each observation has money of its own, none that adds it. */
  #fitColumns() {
    return FIT_COLUMNS.filter((it) => !(this.hasOwnMoney && it.startsWith("steps")));
  }

  /** A row with its goodness of fit, as far as that was asked. */
  #fitted(row) {
    const none = Object.fromEntries(FIT_COLUMNS.map((it) => [it, ""]));
    return { ...row, ...(this.fits.get(row.household) ?? none) };
  }

  /** Shows further columns. */
  #addColumns(names) {
    this.asked = [...new Set([...this.asked, ...names])];
    this.rows = this.rows.map((it) => this.#fitted(it));
    this.columns = this.#columnsWith(this.asked);
    this.head.replaceChildren(...this.#heads());
    this.show(true);
  }

  /** The columns of the table, and those of them that are not asked unasked. */
  #columnsWith(asked) {
    const isAsked = (it) => !NOT_ASKED.includes(it) || asked.includes(it);
    const own = COLUMNS.filter((it) => isAsked(it) && !(this.hasOwnMoney && it === "quasilinear"));
    return withColumns(own, asked.filter((it) => FIT_COLUMNS.includes(it)));
  }

  /** Where what is spent is in money of its own at each observation, nothing is told that adds it. */
  #taken(row) {
    return this.hasOwnMoney ? { ...row, quasilinear: "" } : row;
  }

  /** Random behaviour on the budgets of the units that were answered, one after another. */
  async #drawRandom(count, seed) {
    const answered = new Set(this.rows.filter((it) => !it.fault).map((it) => it.household));
    const given = this.households.filter((it) => answered.has(it.household));
    if (!given.length) return;
    const began = performance.now();
    [this.random, this.failing] = [[], 0];
    this.draw.disabled = true;
    const tables = given.map((it) => () => purchasesOf(it.bytes));
    try {
      await drawBehaviours(this.client, tables, Number(seed), Number(count), (parts) => {
        this.random.push(...parts.map((it) => it.efficiency));
        this.failing += parts.filter((it) => it.garp === "violated").length;
        this.shows.progress(this.random.length, Number(count), began, "random behaviours");
      });
    } finally {
      this.draw.disabled = false;
      this.show(true);
    }
  }

  /** How many behaviours are drawn, and from which seed. */
  #draws() {
    const most = limit("command_line.draws");
    [this.behaviours, this.seed] = [numberField(most, 1, most), numberField(1, 0, MOST_SEED)];
    this.draw = button("Draw random behaviour anew", () => this.shows.working(async () => {
      if (![this.behaviours, this.seed].every((it) => it.reportValidity())) return;
      await this.#drawRandom(this.behaviours.value, this.seed.value);
      this.shows.tell(`${this.random.length} random behaviours from the seed ${this.seed.value}: done.`);
    }));
    return make(
      "div",
      { className: "row" },
      labelled("Random behaviours", this.behaviours),
      labelled("from the seed", this.seed),
      this.draw,
    );
  }

  /** How many behaviours the program draws on the budgets of each unit, for the column `power`, and the seed. */
  #powers() {
    const [draws, seed] = [numberField(1000, ...range("power", "N")), numberField(1, ...range("power", "SEED"))];
    const ask = button("Compute the power of each unit", () => this.shows.working(async () => {
      if (![draws, seed].every((it) => it.reportValidity())) return;
      ask.disabled = true;
      try {
        await this.#askPower({ draws: Number(draws.value), seed: seed.value });
      } finally {
        ask.disabled = false;
      }
    }));
    const fields = [labelled("Draws of rp power", draws), labelled("from its seed", seed), ask];
    const row = make("div", { className: "row", id: "panel-power" }, ...fields);
    return [row, make("p", { className: "note", textContent: HOW_POWER_DRAWS })];
  }

  /** What computes goodness of fit of each unit. */
  #fitAsk() {
    const ask = button("Compute goodness of fit of each unit", () => this.shows.working(async () => {
      ask.disabled = true;
      try {
        await this.#askFit();
      } finally {
        ask.disabled = false;
      }
    }));
    const row = make("div", { className: "row", id: "panel-fit" }, ask);
    return [row, make("p", { className: "note", textContent: FIT_MEANS })];
  }

  #tools() {
    const filter = make(
      "input",
      { type: "search", id: freshId("filter"), oninput: () => this.#filtered(filter.value) },
    );
    const csv = () => keepFile(
      "verdicts.csv",
      writeRecords(tableRecords(this.rows, this.name, this.asked.filter((it) => FIT_COLUMNS.includes(it)))),
      "text/csv",
    );
    return make(
      "div",
      { className: "row" },
      labelled("Rows with the text:", filter),
      button("Keep the table as CSV", csv),
      make("span", {
        className: "note",
        textContent:
          "In a spreadsheet, use efficiency_floor, which is rounded down: the spreadsheet may read the fraction 4/5 " +
          "as a date. A name that begins with =, +, - or @ gets a ' in front.",
      }),
    );
  }

  #filtered(text) {
    this.filter = text.toLowerCase();
    this.show(true);
  }

  #table() {
    this.head = make("tr", {}, ...this.#heads());
    const table = make("table", { id: "panel-table" }, make("thead", {}, this.head), this.body);
    return make(
      "div",
      { className: "scroll tall", tabIndex: 0, attrs: { role: "region", "aria-label": `verdicts by ${this.name}` } },
      table,
    );
  }

  #heads() {
    this.heads = this.columns.map((column) => make(
      "th",
      { scope: "col", attrs: { "aria-sort": "none" } },
      button(column === "household" ? this.name : column, () => this.#sorted(column)),
    ));
    return this.heads;
  }

  #sorted(column) {
    this.order = { column, falls: this.order.column === column && !this.order.falls };
    this.heads.forEach(
      (it, at) => it.setAttribute(
        "aria-sort",
        this.columns[at] !== column ? "none" : this.order.falls ? "descending" : "ascending",
      ),
    );
    this.show(true);
  }

  #shown() {
    const { column, falls } = this.order;
    const found = this.rows.filter(
      (row) => !this.filter || this.columns.some((it) => row[it].toLowerCase().includes(this.filter)),
    );
    if (!column) return found;
    const isIndex = column === "efficiency" || column === "efficiency_floor";
    const key = (row) => (isIndex && row.efficiency ? asNumber(row.efficiency) : row[column]);
    const compared = (a, b) =>
      typeof a === "number" && typeof b === "number"
        ? a - b
        : String(a).localeCompare(String(b), "en", { numeric: true });
    found.sort((a, b) => compared(key(a), key(b)) * (falls ? -1 : 1));
    return found;
  }

  /** The answers of one unit, as those of a table. */
  async #open(row) {
    this.opening += 1;
    const own = this.opening;
    const name = row.household ? `${this.name} ${row.household}` : `Record ${row.record}`;
    const head = make("h3", { textContent: name });
    if (row.fault) {
      this.opened.replaceChildren(head, make("p", { className: "fault", textContent: row.told }));
      return;
    }
    const file = { name: "table.csv", bytes: this.households.find((it) => it.household === row.household).bytes };
    this.opened.replaceChildren(head, say("…"));
    const given = await this.client.answer(["analyse", file.name], [file]);
    if (own !== this.opening) return;
    const certificate = async () => (await this.client.answer(["certify", file.name], [file])).output;
    const [table, fit] = [purchasesOf(file.bytes), { client: this.fitting, file }];
    const answers = tableAnswers(given.output, table, certificate, this.hasOwnMoney, given.stated, fit);
    this.opened.replaceChildren(head, answers);
    this.opened.scrollIntoView({ block: "nearest" });
  }

  #row(row) {
    const cells = this.columns.map((it) => {
      if (it === "household") {
        const open = button(row.household || "(none)", () => this.#open(row), "link");
        open.setAttribute("aria-label", `open ${this.name} ${row.household}`);
        return make("td", {}, open);
      }
      return make("td", { textContent: row[it] });
    });
    return make("tr", {}, ...cells);
  }

  show(isWhole) {
    const unnamed = this.rows.filter((it) => !it.household);
    const refused = this.rows.filter((it) => it.fault && it.household);
    const kept = this.rows.filter((it) => it.garp === "holds");
    const alone = kept.filter((it) => it.observations === "1").length;
    const [worst] = [...refused, ...unnamed];
    const who = worst?.household ? `${worst.household}: ` : "a row: ";
    const first = worst ? ` The first with an error is ${who}${worst.told} ${this.advice}`.trimEnd() : "";
    const nothing = alone ? ` (${alone} have one row, which cannot violate GARP)` : "";
    const held = this.hasLevels ? ", by their levels" : "";
    const none = unnamed.length ? ` ${unnamed.length} rows have no ${this.name}, and belong to no unit.` : "";
    const answered = this.rows.length - refused.length - unnamed.length;
    this.summary.textContent =
      `${answered} of ${this.households.length} ${this.units} tested${this.took}, ` +
      `${kept.length} of them satisfy GARP${held}${nothing}, ${refused.length} with errors.${none}${first}`;
    if (!isWhole) return;
    const found = this.#shown();
    this.body.replaceChildren(...found.slice(0, MOST_ROWS).map((row) => this.#row(row)));
    const opens = ` Press a ${this.name} to see its picture and its cycle.`;
    this.note.textContent = (found.length > MOST_ROWS
      ? `The first ${MOST_ROWS} of ${found.length} rows are shown; the CSV has all.`
      : `${found.length} rows.`) + opens;
    this.#draw();
  }

  #draw() {
    const people = this.rows.flatMap((it) => (it.efficiency ? [it.efficiency] : []));
    if (!people.length) return;
    const svg = indexPicture(people.map(asNumber), this.random.map(asNumber), this.units);
    const beside = this.random.length
      ? ` beside ${this.random.length} random behaviours on the same budgets. Each takes a point of each budget ` +
        "line, and every point is equally likely (Bronars 1987)."
      : ".";
    const caption = make(
      "figcaption",
      { textContent: `The share of ${this.units} with at most each CCEI${beside}` },
    );
    this.figure.replaceChildren(
      svg,
      caption,
      button("Keep the picture as SVG", () => keepFile("indices.svg", fileOf(svg), "image/svg+xml")),
    );
    const groups = { [this.units]: people, ...(this.random.length ? { "random behaviour": this.random } : {}) };
    const power = this.random.length
      ? [say(`${shareInWords(this.failing, this.random.length)} random behaviours violate GARP.`)]
      : [];
    this.shares.replaceChildren(sharesTable(groups), ...power);
  }
}
