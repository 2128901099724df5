/** What the program has, as docs/catalogue.json tells: commands, faults, limits, words. The build puts it in. */
const FACTS = "{catalogue}";

/** The number of a limit, by its name in the catalogue. */
export function limit(name) {
  return Number(FACTS.limits.find((it) => it.name === name).most);
}

/** The same as it is written in a sentence. */
export const written = (name) => limit(name).toLocaleString("en");

export const commands = () => FACTS.commands;

/** The range of a number, or of an option's number, of a command: the least and the most. */
export function range(command, name) {
  const form = FACTS.commands.find((it) => it.name === command);
  const { least, most } = [...form.numbers, ...form.options].find((it) => it.name === name);
  return [least, most];
}

export const facts = () => FACTS;

/** What is wrong and what to do, by the sentences of the catalogue; nothing where it has none. */
export function sentenceOf(of, code) {
  const it = FACTS.hints.find((one) => one.of === of && one.code === code);
  if (!it) return "";
  const said = `${it.wrong} ${it.do}`.trim();
  const asked = said.replace(/Use --per (\d+)/, "Give $1 as the number of units");
  return asked.replace(/--id NAME; without[^.]*/, "its role");
}

/** What units are called, by the name of the column that tells them apart: subjects by subject, or by subject_id. */
export function unitsBy(column) {
  const name = column.trim().toLowerCase();
  return FACTS.units[name] ?? FACTS.units[name.replace(/[ _.-]?(?:id|no|nr|number)$/, "")] ?? "units";
}
