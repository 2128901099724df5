/** Small helpers for the page's elements. */

/** Makes an element; properties whose name begins with `on` are listeners, those of `attrs` attributes. */
export function make(name, properties = {}, ...children) {
  const it = document.createElement(name);
  for (const [key, value] of Object.entries(properties)) {
    if (key.startsWith("on")) it.addEventListener(key.slice(2), value);
    else if (key === "attrs") for (const [attr, text] of Object.entries(value)) it.setAttribute(attr, text);
    else it[key] = value;
  }
  it.append(...children.filter((child) => child !== null && child !== undefined));
  return it;
}

export const textOf = (id) => document.getElementById(id).textContent;

const FIELDS = "button, input, select, textarea, summary";

/** Draws a place anew. The field that had the focus has it again, where one of its kind stands in its turn. */
export function drawAnew(place, ...parts) {
  const own = document.activeElement;
  const turn = [...place.querySelectorAll(FIELDS)].indexOf(own);
  place.replaceChildren(...parts);
  const again = turn < 0 ? null : place.querySelectorAll(FIELDS)[turn];
  if (again?.tagName === own.tagName && again.type === own.type) again.focus();
}

let count = 0;

/** A name that no other element has. */
export function freshId(word) {
  count += 1;
  return `${word}-${count}`;
}

/** A field with its label. */
export function labelled(says, field) {
  field.id ||= freshId("field");
  return make("span", {}, make("label", { htmlFor: field.id, textContent: says }), field);
}

/** A field for a whole number. */
export function numberField(value, least, most) {
  return make("input", { type: "number", value, min: least, max: most, size: 8 });
}

/** Hands a file to the browser to keep. */
export function keepFile(name, data, type) {
  const address = URL.createObjectURL(new Blob([data], { type }));
  const link = make("a", { href: address, download: name });
  document.body.append(link);
  link.click();
  link.remove();
  setTimeout(() => URL.revokeObjectURL(address), 10_000);
}

export function button(says, onclick, className = "") {
  return make("button", { type: "button", textContent: says, onclick, className });
}

export function folded(says, ...children) {
  return make("details", {}, make("summary", { textContent: says }), ...children);
}

/** A table of texts under column names, in a place of its own to scroll in. */
export function tableOf(names, rows, caption) {
  const head = make("tr", {}, ...names.map((it) => make("th", { scope: "col", textContent: it })));
  const body = rows.map(
    (row) => make(
      "tr",
      {},
      ...row.map((it) => make("td", { textContent: it, className: /^-?[\d./]+$/.test(it) ? "number" : "" })),
    ),
  );
  const it = make(
    "table",
    {},
    caption ? make("caption", { textContent: caption, className: "note" }) : null,
    make("thead", {}, head),
    make("tbody", {}, ...body),
  );
  return make(
    "div",
    { className: "scroll tall", tabIndex: 0, attrs: { role: "region", "aria-label": caption ?? "table" } },
    it,
  );
}

/** A text of the program as it stands. */
export function printed(text, says = "the program's text") {
  return make("pre", { textContent: text, tabIndex: 0, attrs: { role: "region", "aria-label": says } });
}

export const say = (text) => make("p", { textContent: text });

/** Sentences that follow each other. */
export const listOf = (texts) => make("ol", {}, ...texts.map((it) => make("li", { textContent: it })));

/** Cards with their titles at this level: what was asked, the verdict, what it says, and the rest. */
export const cardsAt = (level) => (title, verdict, looks, ...rest) => make(
  "article",
  { className: "card" },
  make(level, { textContent: title }),
  make("p", { className: `verdict ${looks}`.trim(), textContent: verdict.head }),
  say(verdict.says),
  ...rest,
);
