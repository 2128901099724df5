/** What the program's answers say in words: the sentence of each verdict, and amounts in the units of the files. */
import { about, inUnits, parseReport, withDecimal } from "./reports.js";
import { sentence } from "./sentences.js";

export const isWithheld = (text) => text.startsWith("withheld");

/** The mark of what `rp` itself withholds, and what it means. */
export const WIDE = "(wide)";
export const WIDE_MEANS =
  `${WIDE} marks what rp itself leaves undetermined, because an exact number of its computation gets too long. ` +
  "The program rp-wide found evidence that the checker accepts; the verdict is as true.";

/** What the same mark means of choices that `rp` itself refuses. */
export const REFUSED_MEANS =
  `${WIDE} marks verdicts on choices that rp itself rejects, because they have more patches or types than it lists. ` +
  "The program rp-wide takes them. Its verdict has evidence that its checker accepts, and is as true.";

/** What is said above a report: by which edition it is; `stated` is there where it is the wider one's. */
export const reportBy = (stated) => `The report, as ${stated ? "rp-wide" : "the program"} prints it`;

/** What the column `wide` of a table of many answers means. */
export const WIDE_COLUMN =
  "The column wide names the results that rp itself leaves undetermined and rp-wide found, with evidence that the " +
  "checker accepts.";

/** Whether the homothetic verdict is given where `rp` itself withholds it; `stated` is what that writes, or nothing. */
export const isWideTest = (output, stated) =>
  Boolean(stated) && parseReport(stated).items.homothetic.verdict.startsWith("withheld") &&
  !parseReport(output).items.homothetic.verdict.startsWith("withheld");

/** Of bounds, and the same as `rp` itself writes them: each with the sides that `rp` withholds and these have. */
export function withWide(bounds, stated) {
  return bounds.map((it, at) => ({
    ...it,
    wide: ["lower", "upper"].filter((side) => it[side] !== null && stated?.[at]?.[side] === null),
  }));
}

/**
 * The bounds on each good in a report of demand, in the units of the file, as exact texts; `wide` are those that `rp`
 * itself withholds, by what that writes.
 */
export function demandBounds(output, goods, places, stated = null) {
  if (stated) return withWide(demandBounds(output, goods, places), demandBounds(stated, goods, places));
  return output.split("\n").flatMap((line) => {
    const it = /^good (\d+) lower (\S+|withheld \d+) upper (\S+|withheld \d+)$/.exec(line);
    if (!it) return [];
    const [lower, upper] = [it[2], it[3]].map((text) => (isWithheld(text) ? null : inUnits(text, places)));
    return [{ name: goods[Number(it[1]) - 1], lower, upper, wide: [] }];
  });
}

/** What the bounds on a good say. */
export function demandSays({ name, lower, upper, wide = [] }) {
  const of = (bound, value) => (value === null
    ? sentence("demand", "bounds", { bound: `${bound} withheld` })
    : sentence("demand", "bounds", { bound }, { good: name, [bound]: withDecimal(value) }));
  const marked = (bound) => (wide.includes(bound) ? ` ${WIDE}` : "");
  return [["lower", lower], ["upper", upper]].map(([it, value]) => `${name}: ${of(it, value).says}${marked(it)}`);
}

const WELFARE = /^welfare prices (.*) observation (\d+) lower (\S+|withheld \d+) upper (\S+) at (\d+)$/;

/**
 * The bounds of a report of welfare, in the units of money; `places` are those of the file, `record` counts new prices;
 * `wide` are those that `rp` itself withholds, by what that writes.
 */
export function welfareBounds(output, places, stated = null) {
  if (stated) return withWide(welfareBounds(output, places), welfareBounds(stated, places));
  let record = 0;
  return output.split("\n").flatMap((line) => {
    const it = WELFARE.exec(line);
    if (!it) return [];
    const [, , observation, lower, upper, at] = it;
    if (observation === "1") record += 1;
    const units = (text) => (isWithheld(text) ? null : inUnits(text, places));
    return [{ record, observation, lower: units(lower), upper: units(upper), at, wide: [] }];
  });
}

/** What the bounds on one observation say. */
export function welfareSays({ observation, lower, upper, at }) {
  const values = { observation, at, upper: withDecimal(upper) };
  const below = lower === null
    ? sentence("welfare", "bounds", { bound: "lower withheld" })
    : sentence("welfare", "bounds", { bound: "lower" }, { ...values, lower: withDecimal(lower) });
  return `${below.says} ${sentence("welfare", "bounds", { bound: "upper" }, values).says}`;
}

/** What a report of utility says, a sentence for each bundle. */
export function utilitySays(output, levels) {
  return output.split("\n").flatMap((line) => {
    const it = /^at (\d+) (value|none|withheld)(?: (-?\d+))?$/.exec(line);
    if (!it) return [];
    const { head, says } = sentence("utility", it[2], { levels }, { value: it[3] });
    return [`Bundle ${it[1]}: ${head}. ${says}`];
  });
}

/** What the count of the command `power` says. */
export function powerSays(output) {
  const it = /^power \d+ draws (\d+) violations (\d+)$/m.exec(output);
  return it ? sentence("power", "count", {}, { draws: it[1], violations: it[2] }) : null;
}

/** What the answer of `pump` says. */
export function pumpSays(output) {
  const ratio = parseReport(output).items.pump.verdict;
  const bound = ratio === "0" ? "0" : "above 0";
  return sentence("pump", "ratio", { bound }, { ratio, about: about(ratio) });
}

/** What the verdict of `random` or `menus` says, of the shares as they are or as they were rounded to units. */
export function populationSays(output, command) {
  const verdict = new RegExp(`^${command} (\\w+)`, "m").exec(output)[1];
  const share = /violated share (\S+)/.exec(output)?.[1];
  const units = /^apportioned per (\d+)$/m.exec(output)?.[1];
  const values = { ...(share ? { share, about: about(share) } : {}), ...(units ? { units } : {}) };
  return sentence(command, verdict, { apportioned: Boolean(units) }, values);
}

/** The types of a report of `random`: of each its patches, one of each budget, and its share of all. */
export function typesIn(output) {
  const total = BigInt(/ total (\d+)$/m.exec(output)[1]);
  const den = BigInt(/ over (\d+)$/m.exec(output)?.[1] ?? 1);
  return [...output.matchAll(/^part ([\d ]+) weight (\d+)$/gm)].map(([, list, weight]) => ({
    patches: list.split(" ").map(Number),
    share: inUnits(`${weight}/${den * total}`, 0),
  }));
}

/** The patches of a report of `patches`: of each its budget, its share of the choices there, and its sides. */
export function patchesIn(output) {
  const total = / total (\d+)$/m.exec(output)[1];
  const lines = output.matchAll(/^patch (\d+) budget (\d+) units (\d+) sides ([a-z ]+)$/gm);
  return [...lines].map(([, patch, budget, units, sides]) => ({
    patch,
    budget,
    share: inUnits(`${units}/${total}`, 0),
    sides: sides.split(" "),
  }));
}

/** What the verdicts of `cost` say, each with its head. */
export function firmSays(output) {
  const words = ["cost", "profit"].map((it) => [it, new RegExp(`^${it} (\\w+)$`, "m").exec(output)?.[1]]);
  return words.filter(([, word]) => word).map(([it, word]) => sentence(it, word));
}

const COST = /^bounds prices (.*) output (\S+) lower (\S+|withheld \d+) upper (?:(\d+) at (\d+)|none)$/;

/**
 * What the bounds on the costs of asked outputs say, in the units of money; `places` are those of money. A lower bound
 * that `rp` itself withholds, by what that writes, is marked.
 */
export function costSays(output, places, stated = null) {
  const matches = (text) => (text ?? "").split("\n").map((line) => COST.exec(line)).filter(Boolean);
  const own = matches(stated);
  return matches(output).map((it, number) => {
    const [, , , lower, upper, at] = it;
    const mark = !isWithheld(lower) && own[number] && isWithheld(own[number][3]) ? ` ${WIDE}` : "";
    const below = isWithheld(lower)
      ? sentence("cost", "bounds", { bound: "lower withheld" })
      : sentence("cost", "bounds", { bound: "lower" }, { lower: withDecimal(inUnits(lower, places)) });
    const above = upper
      ? sentence("cost", "bounds", { bound: "upper" }, { at, upper: withDecimal(inUnits(upper, places)) })
      : sentence("cost", "bounds", { bound: "no upper" });
    return `${below.says}${mark} ${above.says}`;
  });
}
