/** The answers on the other kinds of files: choices from budgets and from menus, and production. */
import { button, folded, keepFile, labelled, listOf, make, printed, say, tableOf } from "./dom.js";
import { checkQuestion, verdictOf } from "./questions.js";
import { placesOf, withDecimal } from "./reports.js";
import {
  REFUSED_MEANS,
  WIDE,
  WIDE_MEANS,
  costSays,
  firmSays,
  patchesIn,
  populationSays,
  typesIn,
} from "./says.js";
import { parseRecords } from "./sheets.js";

/** The most places of a number in columns with this mark. */
function placesIn(bytes, mark) {
  const records = parseRecords(new TextDecoder().decode(bytes).replace(/^\ufeff/, ""), ",");
  const columns = records[0].flatMap((name, at) => (mark.test(name.trim()) ? [at] : []));
  return Math.max(0, ...records.slice(1).flatMap((row) => columns.map((at) => placesOf(row[at] ?? ""))));
}

/** The verdict on choices from budgets, marked where `rp` itself refuses them. */
function choicesSay(output, refused) {
  const verdict = populationSays(output, "random");
  if (!refused) return [verdictOf(verdict)];
  return [verdictOf({ ...verdict, head: `${verdict.head} ${WIDE}` }), say(REFUSED_MEANS)];
}

/** The types that make the choices, or as many as rational types can, and the patches that choices fall in. */
function choicesTables(output, patches) {
  const types = typesIn(output).map((it) => [it.patches.join(" "), withDecimal(it.share)]);
  const own = patchesIn(patches).map((it) => [it.patch, it.budget, withDecimal(it.share), it.sides.join(" ")]);
  const shown = types.length
    ? [folded("Kinds of people", tableOf(["patch of each budget", "share of all"], types, "the kinds of people"))]
    : [];
  const sides =
    "A patch is what was chosen from a budget on the same side of each other one. Of each budget in order: it costs " +
    "more than the income there (above), just that (on), or less (below).";
  const names = ["patch", "budget", "share of its choices", "sides of each budget"];
  return [...shown, folded("Patches of the budgets", say(sides), tableOf(names, own, "the patches"))];
}

/** What is said above the program's text of the other kinds of files. */
function otherSays(kind, { output, stated, refused }, files) {
  if (kind === "budgets") return choicesSay(output, refused);
  if (kind === "menus") return [verdictOf(populationSays(output, "menus"))];
  const inputs = Number(/^technology .* places \d+ (\d+)$/m.exec(output)[1]);
  const bounds = costSays(output, placesIn(files[1].bytes, /^w_/) + inputs, stated);
  const means = bounds.some((it) => it.includes(WIDE)) ? [say(WIDE_MEANS)] : [];
  return [...firmSays(output).map(verdictOf), ...(bounds.length ? [listOf(bounds)] : []), ...means];
}

/** Asks a question of the other kinds of files; `per` is the number of units that is asked for, or nothing. */
export async function otherAnswers(client, kind, files, per) {
  const names = files.map((it) => it.name);
  const units = per ? ["--per", per] : [];
  const command = { budgets: "random", menus: "menus", production: "cost" }[kind];
  const answer = await client.answer([command, ...names, ...(kind === "production" ? [] : units)], files);
  if (answer.status !== 0) return { answer, parts: [] };
  const parts = [...otherSays(kind, answer, files), printed(answer.output)];
  if (kind === "budgets") {
    const keep = async () => keepFile(
      "certificate.json",
      (await client.answer(["random", ...names, ...units, "--json"], files)).output,
      "application/json",
    );
    const patches = (await client.answer(["patches", ...names, ...units], files)).output;
    parts.push(
      ...choicesTables(answer.output, patches),
      make("div", { className: "row" }, button("Make a certificate and keep it", keep)),
      checkQuestion(client, "Check a certificate on these choices", files, ["checkrandom", ...units]),
    );
  }
  return { answer, parts };
}
