/** A place for one file: dropped, chosen, pasted or an example; what was found of its form, and the columns' roles. */
import { button, drawAnew, folded, freshId, keepFile, labelled, make, tableOf } from "./dom.js";
import { Mapping, ROLES, Sheet, lacksOf, otherThanText, placeInFile, placeInWords } from "./sheets.js";

// How many records of a file are shown, and how many bytes are read unasked.
const [SHOWN, MOST_UNASKED] = [8, 20 * 2 ** 20];

export class Slot {
  /**
   * `form` has the slot's key, its title, whether columns can be assigned, and its examples by name. `onChange` is
   * called
   * before anything else is asked of the slot than was answered, `onReady` when its file is to be answered, with `true`
   * where a button asked for it.
   */
  constructor(form, examples, { onChange, onReady }) {
    [this.form, this.examples, this.onChange, this.onReady] = [form, examples, onChange, onReady];
    [this.sheet, this.mapping, this.reading] = [null, null, 0];
    this.body = make("div");
    this.place = make(
      "div",
      { className: "slot" },
      make("h3", { textContent: form.title }),
      make("p", { className: "note", textContent: form.note }),
      this.#ways(),
      this.body,
    );
    this.place.addEventListener("dragover", (event) => {
      event.preventDefault();
      this.place.classList.add("over");
    });
    this.place.addEventListener("dragleave", () => this.place.classList.remove("over"));
    this.place.addEventListener("drop", (event) => {
      this.place.classList.remove("over");
      // Several files are for the page, which has the other places.
      if (event.dataTransfer.files.length > 1) return;
      event.preventDefault();
      if (event.dataTransfer.files[0]) this.takeFile(event.dataTransfer.files[0]);
    });
  }

  get title() {
    return this.form.title;
  }

  #ways() {
    const chooser = make(
      "input",
      {
        type: "file",
        id: `file-${this.form.key}`,
        onchange: () => chooser.files[0] && this.takeFile(chooser.files[0]),
      },
    );
    const pasted = make("textarea", { id: `paste-${this.form.key}`, spellcheck: false });
    const take = button("Take this text", () => this.take("pasted.csv", new TextEncoder().encode(pasted.value)));
    const given = this.form.examples.map(
      (name) => button(name, () => this.take(name, new TextEncoder().encode(this.examples[name]))),
    );
    return make(
      "div",
      {},
      make("div", { className: "row" }, labelled("Drop a file here, or choose one:", chooser)),
      folded("Paste a text", labelled("Text of the file", pasted), make("div", { className: "row" }, take)),
      make(
        "div",
        { className: "row", attrs: { role: "group", "aria-label": "Examples" } },
        make("span", { textContent: "Examples:" }),
        ...given,
      ),
    );
  }

  /** Takes a file, and asks before it reads a very large one. */
  takeFile(file) {
    if (file.size <= MOST_UNASKED) return this.#read(file);
    this.#clear();
    const size = `${file.name} has ${(file.size / 2 ** 20).toFixed(1)} MB, and was not read.`;
    const way =
      `Beyond ${MOST_UNASKED / 2 ** 20} MB the page may take minutes, or run out of memory: the panel's command, ` +
      "rp-panel, makes a table of such files, and so do the packages for Python and R.";
    this.body.replaceChildren(
      make(
        "div",
        { className: "fault", attrs: { role: "alert" } },
        make("strong", { textContent: size }),
        make("p", { textContent: way }),
        button("Read it all the same", () => this.#read(file)),
      ),
    );
    return null;
  }

  async #read(file) {
    this.#clear();
    const own = this.reading;
    const bytes = new Uint8Array(await file.arrayBuffer());
    if (own === this.reading) this.take(file.name, bytes);
  }

  /** Forgets the file that was there, and all that was answered of it. */
  #clear() {
    this.reading += 1;
    [this.sheet, this.mapping] = [null, null];
    this.body.replaceChildren();
    this.onChange(this);
  }

  /** Says why nothing is taken, and what to do. */
  refuse(head, way) {
    this.#clear();
    const says = make("strong", { textContent: head });
    const how = make("p", { textContent: way });
    this.body.replaceChildren(make("div", { className: "fault", attrs: { role: "alert" } }, says, how));
  }

  /** Takes a file's bytes, and shows what it is. */
  take(name, bytes) {
    this.#clear();
    const other = otherThanText(bytes);
    if (other) {
      this.refuse(`${name} is not taken.`, other);
      return;
    }
    this.sheet = new Sheet(/^[^-]/.test(name) ? name : `file ${name}`, bytes);
    this.mapping = this.form.mapped ? Mapping.suggested(this.sheet.header, this.sheet.records) : null;
    this.isAsked = this.sheet.findings().some((it) => it.change) || Boolean(
      this.mapping && !this.mapping.isIdentity(this.sheet.header),
    );
    this.isTaken = !this.isAsked;
    this.show();
    if (this.isTaken) this.onReady(this);
  }

  /** The file as the program gets it. */
  get file() {
    return { name: this.sheet.name, bytes: this.sheet.bytesFor(this.mapping) };
  }

  /** Shows the file; where it was answered, what was asked of its form and its records are folded. */
  show(fault = null, isAnswered = false) {
    const sheet = this.sheet;
    const size =
      `${sheet.name}: ${Math.max(0, sheet.records.length - 1)} rows of ${sheet.header.length} columns, ` +
      `${sheet.bytes.length.toLocaleString("en")} bytes.`;
    const isOpen = Boolean(fault) || (this.isAsked && !isAnswered);
    const asked = this.isAsked
      ? [this.#changes(), this.#go()]
      : sheet.findings().map((it) => make("p", { className: "finding", textContent: it.says }));
    const preview = folded("The rows of the file", this.#preview(fault));
    preview.open = isOpen;
    const isFolded = this.isAsked && !isOpen;
    drawAnew(
      this.body,
      make("p", { textContent: size }),
      ...(fault ? [this.#fault(fault)] : []),
      ...(isFolded ? [folded("What the columns are, and what was changed", ...asked)] : asked),
      preview,
    );
  }

  #changes() {
    const offers = this.sheet.findings().map((it) => {
      const says = make("div", { textContent: it.says });
      if (!it.change) return make("div", { className: "finding" }, says);
      const box = make("input", {
        type: "checkbox",
        id: freshId("change"),
        checked: this.sheet.made.has(it.key),
        onchange: () => {
          this.sheet.toggle(it.key, box.checked);
          this.#changed();
        },
      });
      return make(
        "div",
        { className: "finding" },
        ...(it.says ? [says] : []),
        make("span", {}, box, make("label", { htmlFor: box.id, textContent: ` Change: ${it.change}` })),
      );
    });
    return make(
      "div",
      {},
      ...offers,
      this.mapping && !this.mapping.isIdentity(this.sheet.header) ? this.#assignment() : null,
    );
  }

  /** The form in which each column gets its role. */
  #assignment() {
    const header = this.sheet.header;
    const rows = header.map((name, at) => {
      const own = this.mapping.roles[at];
      const options = ROLES.filter((it) => it.key !== "open" || own.role === "open").map(
        (it) => make("option", { value: it.key, textContent: it.says, selected: it.key === own.role }),
      );
      const role = make(
        "select",
        {
          onchange: () => this.#assign(at, role.value, good.value),
          attrs: { "aria-label": `role of the column ${name || at + 1}` },
        },
        ...options,
      );
      const good = make(
        "input",
        {
          value: own.good,
          size: 10,
          disabled: !ROLES.find((it) => it.key === own.role).good,
          onchange: () => this.#assign(at, role.value, good.value.trim()),
          attrs: { "aria-label": `good of the column ${name || at + 1}` },
        },
      );
      return make(
        "tr",
        {},
        make("th", { scope: "row", textContent: name || `(column ${at + 1})` }),
        make("td", {}, role),
        make("td", {}, good),
      );
    });
    const head = make(
      "tr",
      {},
      ...["column of the file", "what it is", "good"].map((it) => make("th", { scope: "col", textContent: it })),
    );
    const saved = make("input", { type: "file", accept: ".json", onchange: () => this.#load(saved.files[0]) });
    const lacks = lacksOf(this.mapping, header);
    return make(
      "fieldset",
      {},
      make("legend", { textContent: "What the columns are" }),
      make("p", { textContent: this.#suggested() }),
      make("div", { className: "scroll" }, make("table", {}, make("thead", {}, head), make("tbody", {}, ...rows))),
      make("p", { className: "fault", textContent: lacks, hidden: !lacks }),
      make(
        "div",
        { className: "row" },
        button("Save this assignment", () => keepFile("columns.json", this.mapping.write(header), "application/json")),
        labelled("or take a saved one:", saved),
      ),
    );
  }

  /** What the assignment that is shown is a suggestion from. */
  #suggested() {
    if (this.mapping.hasOwnMoney) {
      const [one, other] = this.mapping.intercepts;
      return (
        "The budget lines are given by their intercepts. Exchanged intercepts are exact prices: the intercept of " +
        `${other} is the price of ${one}. Each observation then has money of its own, so the quasilinear test and ` +
        "the money pump are left out. Change what is wrong."
      );
    }
    const known = this.mapping.roles.some((it) => it.role === "same");
    const names = known
      ? "Prices and quantities have their names. What the other columns are is suggested by theirs; "
      : "These names are not those of the program. The assignment below is suggested by the names; ";
    return `${names}change what is wrong.`;
  }

  /** After a change of what is asked: what was answered before it is gone. */
  #changed() {
    this.isTaken = false;
    this.onChange(this);
    this.show();
  }

  #assign(at, role, good) {
    this.mapping.roles[at] = { role, good: ROLES.find((it) => it.key === role).good ? good : "" };
    this.#changed();
  }

  async #load(file) {
    const own = this.reading;
    try {
      const text = await file.text();
      if (own !== this.reading) return;
      this.mapping = Mapping.read(text, this.sheet.header);
      this.#changed();
    } catch {
      this.show({ file: file.name, means: "This is no saved assignment of columns.", record: 0, column: 0 });
    }
  }

  #answer() {
    this.onChange(this);
    this.isTaken = true;
    this.onReady(this, true);
  }

  #go() {
    const lacks = this.sheet.lacks() || (this.mapping && !this.mapping.isIdentity(this.sheet.header)
      ? lacksOf(this.mapping, this.sheet.header)
      : "");
    const go = button("Run with these columns", () => this.#answer(), "first");
    go.disabled = Boolean(lacks);
    return make(
      "div",
      { className: "row" },
      go,
      ...(this.sheet.lacks() ? [make("span", { textContent: lacks })] : []),
      make(
        "span",
        {
          className: "note",
          textContent: "Only what is ticked and assigned here is changed; the file itself stays as it is.",
        },
      ),
    );
  }

  /** What the program says of a file that it does not take. */
  #fault(fault) {
    const where = placeInWords(placeInFile(fault, this.sheet.records, this.mapping));
    return make(
      "div",
      { className: "fault", id: `fault-${this.form.key}`, attrs: { role: "alert" } },
      make("strong", {
        textContent: `${fault.file || this.sheet.name} has an error: ${fault.fault ?? "unknown"}${where}.`,
      }),
      make("p", { textContent: fault.means }),
    );
  }

  #preview(fault) {
    const records = this.sheet.changed();
    const column = fault ? placeInFile(fault, this.sheet.records, this.mapping).column - 1 : -1;
    const first = fault?.record ? Math.max(1, fault.record - 2) : 1;
    const shown = records.slice(first, first + SHOWN);
    const names = this.sheet.header.map(
      (it, at) => make("th", { scope: "col", textContent: it, className: at === column && !fault.record ? "bad" : "" }),
    );
    const rows = shown.map((fields, row) => {
      const isRow = fault?.record === first + row;
      const cells = fields.map(
        (it, at) => make("td", { textContent: it, className: isRow && (at === column || column < 0) ? "bad" : "" }),
      );
      return make("tr", {}, make("th", { scope: "row", textContent: String(first + row) }), ...cells);
    });
    const more = records.length - 1 > first - 1 + shown.length
      ? `Rows ${first} to ${first - 1 + shown.length} of ${records.length - 1} are shown.`
      : "";
    const table = make(
      "table",
      {},
      make("thead", {}, make("tr", {}, make("th", { scope: "col", textContent: "record" }), ...names)),
      make("tbody", {}, ...rows),
    );
    return make(
      "div",
      {},
      make(
        "div",
        { className: "scroll", tabIndex: 0, attrs: { role: "region", "aria-label": "the beginning of the file" } },
        table,
      ),
      make("p", { className: "note", textContent: more }),
    );
  }
}
