/** What a certificate claims, item by item, and what the checker's answer on it means. */
import { sentenceOf } from "./facts.js";
import { countOf, rounded } from "./fit.js";
import { decimalOf, inUnits, withDecimal } from "./reports.js";

// What is said of items that add money of several observations, where each has money of its own.
const OF_EXCHANGED =
  "on the exchanged intercepts as prices of one unit of money, which says nothing about the data";

// What an item of a certificate says where it has one of these members, by its name.
const ITEM_WORDS = {
  garp: { cycle: "GARP is violated", ranks: "GARP holds" },
  afriat: { cycle: "there are no Afriat numbers", utility: "there are Afriat numbers" },
  homothetic: { cycle: "the homothetic test is violated", values: "the homothetic test holds" },
  quasilinear: { cycle: "the quasilinear test is violated", values: "the quasilinear test holds" },
  demand: { cycle: "there are no bounds of demand, because GARP is violated" },
  welfare: { cycle: "there are no bounds on the money metric, because GARP is violated" },
  random: { parts: "these types make the choices" },
};
// So many levels are named.
const NAMED_LEVELS = 8;

/** The efficiency levels of a certificate, in words: with them GARP and Afriat's numbers are proved at the levels. */
function levelsInWords(levels) {
  const named = levels.slice(0, NAMED_LEVELS).map((it) => decimalOf(`${it}/1000`, 3)).join(", ");
  return levels.length > NAMED_LEVELS ? `${named} and ${levels.length - NAMED_LEVELS} more` : named;
}

/** The share of all choices that the parts of an item on choices make. */
function shareOfParts({ parts, den, total }) {
  const made = parts.reduce((sum, [, weight]) => sum + BigInt(weight), 0n);
  return withDecimal(inUnits(`${made}/${BigInt(den) * BigInt(total)}`, 0));
}

const boundInWords = (it) => (typeof it === "string" ? it : "withheld" in it ? "withheld" : it.value);

/** What an item claims about bounds, which a certificate has in units of the file's last decimal places. */
function boundsInWords(item) {
  const at = `at prices ${item.prices.join(", ")}`;
  if (item.item === "welfare") {
    const [lower, upper] = [item.lower, item.upper].map(boundInWords);
    return `bounds on the money metric of observation ${item.observation} ${at}: ${lower} to ${upper}, in scaled units`;
  }
  const goods = item.goods.map(({ lower, upper }) => `${boundInWords(lower)} to ${boundInWords(upper)}`);
  return `bounds of demand ${at} and expenditure ${item.expenditure}: ${goods.join("; ")}, in scaled units`;
}

/** What an item claims, with its index, share or bounds. */
function claimOf(item, levels, hasOwnMoney) {
  if (item.item === "efficiency") {
    return `the CCEI is ${withDecimal(item.level)}, ${"at_ranks" in item ? "attained" : "not attained"}`;
  }
  if (item.item === "random" && "weights" in item) {
    const share = shareOfParts(item);
    return `no population of consumers with preferences makes these choices; the maximum share is ${share}`;
  }
  if ("goods" in item || (item.item === "welfare" && "upper" in item)) return boundsInWords(item);
  const words = Object.entries(ITEM_WORDS[item.item] ?? {}).find(([member]) => member in item);
  const said = words ? words[1] : item.item;
  if (["garp", "afriat"].includes(item.item) && levels.length) return `${said} at the levels ${levelsInWords(levels)}`;
  return item.item === "quasilinear" && hasOwnMoney ? `${said} ${OF_EXCHANGED}` : said;
}

// What numbers of an item stand for a share or a level, by its name.
const RATIOS = {
  pump: "the maximum money pump index is",
  quasilinear_level: "the level of the quasilinear test is",
};

const inLowest = ({ num, den }) => withDecimal(inUnits(`${num}/${den}`, 0));

const weightOf = (cycles) => cycles.reduce((sum, it) => sum + BigInt(it.weight), 0n);

/** What an item of a certificate on goodness of fit claims. */
function indexClaim(item) {
  const from = (low, high) => (low === high ? `is ${high}` : `is from ${low} to ${high}`);
  switch (item.item) {
    case "violations":
      return `${item.garp} pairs violate GARP, ${item.wgarp} WGARP, ${item.warp} WARP and ${item.sarp} SARP; ` +
        `${countOf(Number(item.observations), "observation")} in pairs that violate GARP`;
    case "kept": {
      const index = "the maximum number of observations that satisfy GARP together (HM)";
      return `${index} ${from(String(item.kept.length), item.most)}`;
    }
    case "levels": {
      const low = inUnits(`${weightOf(item.cycles)}/${BigInt(item.den) * 2n ** 40n * BigInt(item.at.length)}`, 0);
      const below = item.at.filter(Boolean).length;
      const measure = item.measure === "squares" ? "by the mean of squares" : "by the mean";
      const most = below ? `what its levels lose, which are below 1 at ${countOf(below, "observation")}` : "0";
      return `Varian's index (AVI) ${measure} is at least ${rounded(low, 12)}, rounded down, and at most ${most}`;
    }
    case "steps": {
      const [weight, den] = [weightOf(item.cycles), BigInt(item.den)];
      const isExact = den * BigInt(item.cost) < weight + den;
      const low = isExact ? item.cost : inUnits(`${weight}/${den}`, 0);
      return `the minimum cost of strict preferences to drop (MCI) ${from(low, item.cost)}, in scaled units`;
    }
    case "pump":
    case "quasilinear_level":
      return `${RATIOS[item.item]} ${inLowest(item)}`;
    case "homothetic_level": {
      const [low, high] = [item.low, item.high].map((it) => inUnits(`${it}/${2n ** 40n}`, 0));
      const bounds = `from ${rounded(low, 12)} to ${rounded(high, 12, true)}, rounded outward`;
      return `the level of the homothetic test is ${bounds}`;
    }
    default:
      return claimOf(item, [], false);
  }
}

// The items that add money of several observations.
const ADDS_MONEY = ["steps", "pump", "quasilinear_level"];

/** The same; where intercepts are exchanged for prices, what adds money says nothing about the data. */
function fitClaim(item, hasOwnMoney) {
  const said = indexClaim(item);
  return hasOwnMoney && ADDS_MONEY.includes(item.item) ? `${said}, ${OF_EXCHANGED}` : said;
}

/** The kind of a certificate; nothing where the text is not one. */
export function kindOf(text) {
  try {
    return JSON.parse(text)?.kind ?? null;
  } catch {
    return null;
  }
}

/** What the items of a certificate say, in words: of each its verdict, and whether it withholds it. */
export function itemsInWords(text, hasOwnMoney = false) {
  const { items, kind, levels = [] } = JSON.parse(text);
  return items.map((item) => {
    if (kind === "fit") return { says: fitClaim(item, hasOwnMoney), isProved: true };
    if ("withheld" in item) return { says: `${item.item}: withheld`, isProved: false };
    const lacks = JSON.stringify(item).includes('"withheld"') ? ", but for those that it withholds" : "";
    return { says: claimOf(item, levels, hasOwnMoney) + lacks, isProved: true };
  });
}

/** The same of a certificate that was rejected, in which anything may stand: nothing where no claim can be read. */
function claimsOf(text, hasOwnMoney) {
  try {
    return itemsInWords(text, hasOwnMoney);
  } catch {
    return [];
  }
}

/** What the checker's answer means: of an accepted certificate each item, of a rejected one what it is worth. */
export function checkInWords(output, text, hasOwnMoney = false) {
  const rejected = /^rejected item (\d+) (\w+) place (\d+)/.exec(output);
  if (rejected) {
    const [item, reason] = [Number(rejected[1]), rejected[2]];
    const claim = item ? claimsOf(text, hasOwnMoney)[item - 1]?.says : "";
    const at = item && Number(rejected[3]) ? `Place ${rejected[3]} of item ${item}: ` : "";
    const where = item ? `Item ${item} is the first that does` : "The certificate as a whole does";
    return [
      ...(claim ? [`Item ${item} claims: ${claim}.`] : []),
      ...(sentenceOf("reason", reason) ? [at + sentenceOf("reason", reason)] : []),
      `${where} not prove its verdict on these data. A rejected certificate proves nothing: its verdicts may be ` +
        "true or false, and the data may be others than those that it was made of. Take the data as they were then, " +
        "or make a new certificate and compare the two.",
    ];
  }
  const items = itemsInWords(text, hasOwnMoney);
  if (!items.length) return ["It has no items, so nothing is proved."];
  return items.map(({ says, isProved }, at) => {
    const how = isProved ? "proved" : "nothing is proved";
    return `Item ${at + 1}: ${says}: ${how}.`;
  });
}
