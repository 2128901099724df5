/** The form in which any command is typed, with its files. */
import { button, labelled, make, say } from "./dom.js";
import { commands, facts } from "./facts.js";
import { bytesOf } from "./sheets.js";

/** Splits a line into words as a shell does with quotes. */
export function wordsOf(line) {
  return [...line.matchAll(/"([^"]*)"|'([^']*)'|(\S+)/g)].map((it) => it[1] ?? it[2] ?? it[3]);
}

/** The form, which begins with one of the examples. */
export function commandForm(client, examples) {
  const files = new Map();
  const list = make("ul", { id: "command-files" });
  let number = 0;
  const cleared = () => {
    number += 1;
    result.replaceChildren();
  };
  const drawn = () => {
    cleared();
    list.replaceChildren(
      ...[...files].map(
        ([name, bytes]) => make(
          "li",
          {},
          `${name}, ${bytes.length.toLocaleString("en")} bytes `,
          button(`Take away ${name}`, () => (files.delete(name), drawn())),
        ),
      ),
    );
  };
  const chooser = make("input", {
    type: "file",
    id: "command-chooser",
    multiple: true,
    onchange: async () => {
      for (const it of [...chooser.files]) files.set(it.name, new Uint8Array(await it.arrayBuffer()));
      drawn();
    },
  });
  const line = make("input", { id: "command-line", value: "analyse contradiction.csv", spellcheck: false });
  line.addEventListener("input", cleared);
  const result = make("div", { id: "command-result", attrs: { "aria-live": "polite" } });
  files.set("contradiction.csv", bytesOf(examples["contradiction.csv"]));
  drawn();
  const go = async () => {
    cleared();
    const own = number;
    const [, edition = "rp", rest] = /^\s*(?:(?:\.\/)?(rp-wide|rp)(?=\s|$))?(.*)$/.exec(line.value);
    const words = wordsOf(rest);
    const named = [...files].filter(([name]) => words.includes(name)).map(([name, bytes]) => ({ name, bytes }));
    const answer = await client.answer(words, named, edition);
    if (own !== number) return;
    const texts = [
      make("p", { id: "command-status", textContent: `status ${answer.status}` }),
      make("pre", { id: "command-output", textContent: answer.output, tabIndex: 0 }),
      make("pre", { id: "command-told", textContent: answer.told, tabIndex: 0 }),
    ];
    result.replaceChildren(...texts.filter((it) => it.textContent));
  };
  line.addEventListener("keydown", (event) => event.key === "Enter" && go());
  return [
    say(
      `Type a command without the program's name: ${commands().map((it) => it.usage).join("; ")}. With rp-wide in ` +
        "front, rp-wide runs the command: it finds most results that rp leaves undetermined, and takes choices with " +
        `more patches or types. It also has ${facts().wide_commands.map((it) => it.usage).join("; ")}.`,
    ),
    make("div", { className: "row" }, labelled("Files:", chooser)),
    list,
    make("div", { className: "row" }, labelled("rp", line), button("Run this command", go)),
    result,
  ];
}
