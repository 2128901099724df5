/**
 * Random behaviour drawn uniformly on the budget line (Bronars 1987): the same words and the same bundles as the
 * clients
 * for Python and R draw from a seed (clients/tests/behaviours.json). All numbers are whole and at most 2^53, which
 * floating point has exactly.
 */
import { limit } from "./facts.js";
import { writeRecords } from "./sheets.js";

// The moduli of MRG32k3a (L'Ecuyer 1999), the words of a seed, and the whole of which a good's share is a part.
const [FIRST, SECOND] = [4_294_967_087, 4_294_944_443];
export const MOST_SEED = 4_294_967_295;
const WHOLE = 2 ** 29;

const positive = (value, modulus) => ((value % modulus) + modulus) % modulus;

/** The words of a seed, from 1 to 4294967087: MRG32k3a, with the start that R's kind "L'Ecuyer-CMRG" has of it. */
export function words(seed) {
  if (!Number.isInteger(seed) || seed < 0 || seed > MOST_SEED) {
    throw new Error(`a seed is an integer from 0 to ${MOST_SEED}`);
  }
  let from = seed;
  const step = () => (from = (69_069 * from + 1) % 2 ** 32);
  for (let at = 0; at < 50; at++) step();
  const state = Array.from({ length: 6 }, () => {
    do step();
    while (from >= SECOND);
    return from;
  });
  let [a, b] = [state.slice(0, 3), state.slice(3)];
  return () => {
    const first = positive(1_403_580 * a[1] - 810_728 * a[0], FIRST);
    const second = positive(527_612 * b[2] - 1_370_589 * b[0], SECOND);
    [a, b] = [[a[1], a[2], first], [b[1], b[2], second]];
    return first > second ? first - second : first - second + FIRST;
  };
}

/**
 * How much of each good what is spent at each observation buys, in the greatest of the units 10^k of a quantity, k from
 * 6 down to -9, in which each such amount is within the program's limit.
 */
export function amountsOf(table) {
  const most = BigInt(limit("table.largest"));
  const spent = table.prices.map((_, at) => table.cost(at, at));
  const cheapest = table.prices.map((own) => own.reduce((least, it) => (it < least ? it : least)));
  let power = 6;
  const [times, over] = [() => 10n ** BigInt(Math.max(power, 0)), () => 10n ** BigInt(Math.max(-power, 0))];
  while (!spent.every((it, at) => it * times() < (most + 1n) * cheapest[at] * over())) power -= 1;
  return table.prices.map((own, at) => own.map((price) => Number((spent[at] * times()) / (price * over()))));
}

/**
 * One behaviour: at each observation a bundle of whole numbers, each division of what is spent as likely as another.
 */
export function behaviour(amounts, word) {
  return amounts.map((own) => {
    const cuts = own.slice(1).map(() => Math.floor((word() - 1) / 8)).sort((a, b) => a - b);
    const ends = [0, ...cuts, WHOLE];
    const bundle = own.map((amount, good) => Math.floor((amount * (ends[good + 1] - ends[good])) / WHOLE));
    if (bundle.every((it) => it === 0)) bundle[0] = 1;
    return bundle;
  });
}

/** The bytes of a long file of behaviours: of each its household, the prices of its table and its bundles. */
export function drawnFile(drawn) {
  const names = drawn[0].table.goods.flatMap((_, good) => [`p_${good + 1}`, `q_${good + 1}`]);
  const rows = drawn.flatMap(({ household, table, bundles }) => table.prices.map(
    (prices, at) => [household, ...prices.flatMap((price, good) => [String(price), String(bundles[at][good])])],
  ));
  return new TextEncoder().encode(writeRecords([["household", ...names], ...rows]));
}
