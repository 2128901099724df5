/**
 * Random behaviour beside people, as in the figure of Choi, Fisman, Gale and Kariv (2007): drawn uniformly on the
 * budget
 * lines (page/draws.js), and answered by the program.
 */
import { make, tableOf } from "./dom.js";
import { amountsOf, behaviour, drawnFile, words } from "./draws.js";
import { isAtLeast } from "./reports.js";
import { askedRows } from "./rows.js";
import { RECORDS_AT_ONCE } from "./sheets.js";

// How many behaviours are drawn at once, and the thresholds of an index beside the figure: parts of a hundred.
const [AT_ONCE, THRESHOLDS] = [50, [90, 95]];

export const HOW_POWER_DRAWS =
  "The command power draws an integer from 0 to 99 for each good, and divides each by their sum. Shares near to " +
  "equal division are drawn more often, so fewer draws violate GARP than with uniform draws.";

/**
 * Draws so many behaviours from a seed, each on the budgets of one table after another and then anew, and asks about
 * them as households of long files; `onPart` takes the rows as they come. `tables` are functions that give the
 * purchases of one, all of the same goods.
 */
export async function drawBehaviours(client, tables, seed, count, onPart) {
  const word = words(seed);
  const kept = new Map();
  const budgets = (at) => {
    if (!kept.has(at)) {
      const table = tables[at]();
      kept.set(at, { table, amounts: amountsOf(table) });
    }
    return kept.get(at);
  };
  for (let done = 0; done < count;) {
    const drawn = [];
    let records = 0;
    while (done < count && drawn.length < AT_ONCE && records < RECORDS_AT_ONCE) {
      const { table, amounts } = budgets(done % tables.length);
      done += 1;
      drawn.push({ household: String(done), table, bundles: behaviour(amounts, word) });
      records += table.prices.length;
    }
    onPart(await drawnRows(client, drawn));
  }
}

/** The rows of some behaviours that were drawn. */
async function drawnRows(client, drawn) {
  const file = { households: drawn.map((it) => it.household), unnamed: 0, bytes: drawnFile(drawn) };
  const rows = await askedRows(client, file);
  const refused = rows.find((it) => it.fault);
  if (refused) throw new Error(`the program refuses a drawn table: ${refused.fault}`);
  return rows;
}

/** How many of these, and which part of them, in words. */
export const shareInWords = (count, all) =>
  all ? `${count} of ${all} (${((100 * count) / all).toFixed(1)}%)` : "none";

/** How many of these indices are at least each threshold, exactly. */
export function atThresholds(indices) {
  return THRESHOLDS.map((it) => indices.filter((own) => isAtLeast(own, it, 100)).length);
}

/** The shares of indices of at least the thresholds: a row for each of these groups, by its name. */
export function sharesTable(groups) {
  const names = ["", "number", ...THRESHOLDS.map((it) => `CCEI at least 0.${it}`)];
  const rows = Object.entries(groups).map(([name, indices]) => [
    name,
    String(indices.length),
    ...atThresholds(indices).map((it) => shareInWords(it, indices.length)),
  ]);
  return make("div", { className: "shares" }, tableOf(names, rows, "share with a CCEI of at least 0.90 and 0.95"));
}
