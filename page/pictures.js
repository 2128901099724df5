/** Pictures as SVG, to keep as files. They are drawn with floating point from the exact answers, and decide nothing. */
import { asNumber } from "./reports.js";

const SVG = "http://www.w3.org/2000/svg";
// The looks of a picture that stands alone as a file; on the page the style sheet decides.
const ALONE = `text{font:13px sans-serif;fill:#1b1b1f}.axis{stroke:#1b1b1f;fill:none}.budget{stroke:#55555f;fill:none}
.held{stroke:#55555f;stroke-dasharray:2 3;fill:none}
.cycle{stroke:#96261d;stroke-width:3;fill:none}.arrow{fill:#96261d}.chosen{fill:#3d3a8c;stroke:#fff}
.curve{stroke:#1c5d33;stroke-width:2.5;stroke-dasharray:7 4;fill:none}.people{stroke:#3d3a8c;stroke-width:2.5;fill:none}
.random{stroke:#96261d;stroke-width:2.5;stroke-dasharray:3 4;fill:none}.bar{stroke:#3d3a8c;stroke-width:8;fill:none}
.shrunk{stroke:#3d3a8c;stroke-width:2;stroke-dasharray:10 3 2 3;fill:none}
.gone{fill:#fff;stroke:#96261d;stroke-width:1.5}.cross{stroke:#96261d;stroke-width:2.5;fill:none}`;

function element(name, attributes, ...children) {
  const it = document.createElementNS(SVG, name);
  for (const [key, value] of Object.entries(attributes)) it.setAttribute(key, String(value));
  it.append(...children);
  return it;
}

/**
 * How wide a picture is drawn: as wide as the window lets it be shown without making its letters of 13 pixels smaller,
 * and at most 640.
 */
const widthHere = () => Math.max(250, Math.min(640, Math.floor(globalThis.innerWidth ?? 640) - 44));

function picture(width, height, title, description) {
  const it = element(
    "svg",
    { viewBox: `0 0 ${width} ${height}`, role: "img", "aria-label": `${title}. ${description}`, xmlns: SVG },
  );
  // Never narrower than leaves the letters 11 pixels.
  if (it.style) it.style.minWidth = `${Math.ceil((width * 11) / 13)}px`;
  it.append(element("title", {}, title), element("desc", {}, description));
  return it;
}

/** The text of a picture as a file. */
export function fileOf(svg) {
  const copy = svg.cloneNode(true);
  copy.prepend(element("rect", { width: "100%", height: "100%", fill: "#fff" }));
  copy.prepend(element("style", {}, ALONE));
  return `<?xml version="1.0" encoding="UTF-8"?>\n${new XMLSerializer().serializeToString(copy)}\n`;
}

/** Round numbers from 0 to at least the greatest, about so many of them. */
function ticks(most, count = 5) {
  const rough = most / count;
  const power = 10 ** Math.floor(Math.log10(rough));
  const step = [1, 2, 5, 10].map((it) => it * power).find((it) => it >= rough);
  return Array.from({ length: Math.ceil(most / step - 1e-9) + 1 }, (_, at) => at * step);
}

const ticked = (value) => String(Number(value.toPrecision(6)));

/** The frame of a picture: axes from 0 with round numbers, and the two functions from numbers to places. */
function axes(svg, { left, top, width, height, mostX, mostY, nameX, nameY }) {
  const [ticksX, ticksY] = [ticks(mostX, width < 300 ? 3 : 5), ticks(mostY)];
  const [endX, endY] = [ticksX.at(-1), ticksY.at(-1)];
  const x = (value) => left + (value / endX) * width;
  const y = (value) => top + height - (value / endY) * height;
  svg.append(element("path", { class: "axis", d: `M${left} ${top}V${top + height}H${left + width}` }));
  for (const it of ticksX) {
    svg.append(element("path", { class: "axis", d: `M${x(it)} ${top + height}v5` }));
    svg.append(element("text", { x: x(it), y: top + height + 20, "text-anchor": "middle" }, ticked(it)));
  }
  for (const it of ticksY) {
    svg.append(element("path", { class: "axis", d: `M${left} ${y(it)}h-5` }));
    svg.append(element("text", { x: left - 9, y: y(it) + 4, "text-anchor": "end" }, ticked(it)));
  }
  svg.append(element("text", { x: left + width / 2, y: top + height + 40, "text-anchor": "middle" }, nameX));
  const across = {
    x: 14,
    y: top + height / 2,
    "text-anchor": "middle",
    transform: `rotate(-90 14 ${top + height / 2})`,
  };
  svg.append(element("text", across, nameY));
  return { x, y, endX, endY };
}

const pathOf = (points) => points.map(([x, y], at) => `${at ? "L" : "M"}${x.toFixed(2)} ${y.toFixed(2)}`).join("");

/** An arrow from one place to another that stops short of both. */
function arrow(svg, [x1, y1], [x2, y2], bend) {
  const length = Math.hypot(x2 - x1, y2 - y1) || 1;
  const [dx, dy] = [(x2 - x1) / length, (y2 - y1) / length];
  const [midX, midY] = [(x1 + x2) / 2 - dy * bend, (y1 + y2) / 2 + dx * bend];
  const [toX, toY] = [x2 - dx * 9, y2 - dy * 9];
  const turn = Math.hypot(toX - midX, toY - midY) || 1;
  const [ux, uy] = [(toX - midX) / turn, (toY - midY) / turn];
  svg.append(
    element(
      "path",
      { class: "cycle", d: `M${x1 + dx * 8} ${y1 + dy * 8}Q${midX} ${midY} ${toX - ux * 8} ${toY - uy * 8}` },
    ),
  );
  const [baseX, baseY] = [toX - ux * 11, toY - uy * 11];
  svg.append(
    element(
      "path",
      { class: "arrow", d: `M${toX} ${toY}L${baseX - uy * 5} ${baseY + ux * 5}L${baseX + uy * 5} ${baseY - ux * 5}Z` },
    ),
  );
}

/**
 * What each observation allows a bundle by Afriat's numbers, as a function of what the bundle costs there: U of it plus
 * lambda times what the bundle costs beyond what was spent. With levels both count in thousandths, and of what was
 * spent
 * the level's part.
 */
function allowances(table, model) {
  const whole = table.levels ? 1000 : 1;
  return table.prices.map((_, s) => {
    const counts = Number(table.cost(s, s)) * (table.levels ? table.levels[s] : 1);
    return {
      prices: table.prices[s].map(Number),
      of: (cost) => model.utility[s] + model.lambda[s] * (whole * cost - counts),
      costAt: (level) => (counts + (level - model.utility[s]) / model.lambda[s]) / whole,
    };
  });
}

/** The utility of what an observation bought, by Afriat's numbers. */
export function utilityOf(table, model, bundle) {
  return Math.min(...allowances(table, model).map((it, s) => it.of(Number(table.cost(s, bundle)))));
}

/**
 * Bundles of two goods of one utility by Afriat's numbers, in the units of the file, by the first good up to its end.
 */
export function equalUtility(table, model, level, endX, steps = 300) {
  const scale = 10 ** table.quantityPlaces;
  const lines = allowances(table, model).map((it) => ({ prices: it.prices, least: it.costAt(level) }));
  return Array.from({ length: steps + 1 }, (_, at) => {
    const first = (endX / steps) * at;
    const second = Math.max(...lines.map(({ prices, least }) => (least / scale - prices[0] * first) / prices[1]));
    return [first, second];
  });
}

/** A choice that would have to go: a ring with a cross over it. */
const crossed = (x, y) => [
  element("circle", { class: "gone", cx: x, cy: y, r: 6 }),
  element("path", { class: "cross", d: `M${x - 7} ${y - 7}l14 14M${x + 7} ${y - 7}l-14 14` }),
];

/** What stands before the words of an entry of a key. */
function sampleOf(name, x, y) {
  if (name === "chosen") return [element("circle", { class: name, cx: x + 17, cy: y, r: 4 })];
  return name === "cross" ? crossed(x + 17, y) : [element("path", { class: name, d: `M${x} ${y}h34` })];
}

/** Where the entries of a key stand: in as many lines as so many pixels need; and how high they are together. */
export function keyPlaces(entries, wide) {
  let [x, line] = [8, 14];
  const placed = entries.map(([name, says]) => {
    // Letters of 13 pixels are less than 8 wide, but for a few.
    const width = 58 + 7.5 * says.length;
    if (x > 8 && x + width > wide) [x, line] = [8, line + 22];
    const own = { name, says, x, line };
    x += width;
    return own;
  });
  return { placed, height: entries.length ? line + 14 : 0 };
}

/** What the signs of a picture mean, those that it has. */
function keyEntries(cycle, model, gone, shrunk) {
  const entries = [
    ["cycle", "violating cycle", cycle.length],
    ["cross", "would have to go", gone.length],
    ["shrunk", `budget shrunk to the CCEI${shrunk?.index.length < 12 ? ` ${shrunk.index}` : ""}`, shrunk],
    ["curve", "equal utility", model],
  ];
  const own = entries.filter(([, , isThere]) => isThere);
  return own.length ? [["chosen", "chosen bundle"], ...own] : [];
}

/**
 * Budget lines of a table of two goods with the choices, a violating cycle, and a curve of equal utility where there is
 * one. `gone` are observations that would have to go, and `shrunk` the index by which the budgets of some are drawn
 * shrunk.
 */
export function budgetPicture(table, cycle, model, hasLines = false, { gone = [], shrunk = null } = {}) {
  const scale = 10 ** table.quantityPlaces;
  // Where prices are intercepts exchanged, the offered line is drawn; else that of what was spent.
  const ends = table.prices.map((p, s) =>
    hasLines
      ? [p[1], p[0]].map((it) => Number(it) / 10 ** table.pricePlaces)
      : p.map((price) => Number(table.cost(s, s)) / Number(price) / scale)
  );
  const chosen = table.quantities.map((it) => it.map((q) => Number(q) / scale));
  const what = cycle.length
    ? `The arrows are the cycle ${cycle.join(", ")}: each leads to a bundle that could have been bought.`
    : "";
  const describes = model
    ? ` The dashed curve joins bundles as good as that of observation ${model.through + 1} by Afriat's numbers.`
    : "";
  const crosses = gone.length ? ` A cross marks what would have to go: ${gone.join(", ")}.` : "";
  const lines = shrunk
    ? ` Lines of dashes and dots are the budgets of ${shrunk.of.join(", ")}, shrunk to the CCEI ${shrunk.index}.`
    : "";
  const wide = widthHere();
  const key = keyPlaces(keyEntries(cycle, model, gone, shrunk), wide);
  const high = (wide < 480 ? Math.max(300, wide) : 480) + key.height;
  const svg = picture(
    wide,
    high,
    "Budget lines and choices",
    `${table.count} observations of ${table.goods.join(" and ")}. ${what}${describes}${crosses}${lines}`,
  );
  for (const { name, says, x: left, line } of key.placed) {
    svg.append(...sampleOf(name, left, line), element("text", { x: left + 42, y: line + 4 }, says));
  }
  const size = { left: 64, top: 16 + key.height, width: wide - 84, height: high - 72 - key.height };
  const frame = { ...size, nameX: table.goods[0], nameY: table.goods[1] };
  const { x, y, endX, endY } = axes(
    svg,
    { ...frame, mostX: Math.max(...ends.map((it) => it[0])), mostY: Math.max(...ends.map((it) => it[1])) },
  );
  const inCycle = new Set(cycle.map((it) => it - 1));
  const few = table.count <= 60;
  const held = table.levels ?? [];
  ends.forEach(([a, b], s) => {
    if ((few || inCycle.has(s)) && held[s] < 1000) {
      const part = held[s] / 1000;
      svg.append(element("path", { class: "held", d: pathOf([[x(part * a), y(0)], [x(0), y(part * b)]]) }));
    }
    if (few || inCycle.has(s)) {
      svg.append(
        element(
          "path",
          { class: "budget", "stroke-width": inCycle.has(s) ? 2.5 : 1, d: pathOf([[x(a), y(0)], [x(0), y(b)]]) },
        ),
      );
    }
  });
  for (const s of shrunk?.of ?? []) {
    const part = asNumber(shrunk.index) * Number(table.cost(s - 1, s - 1)) / scale;
    const [a, b] = table.prices[s - 1].map((price) => part / Number(price));
    svg.append(element("path", { class: "shrunk", d: pathOf([[x(a), y(0)], [x(0), y(b)]]) }));
  }
  if (model) {
    const curve = equalUtility(table, model, utilityOf(table, model, model.through), endX);
    const shown = curve.filter(([, second]) => second >= 0 && second <= endY);
    svg.append(element("path", { class: "curve", d: pathOf(shown.map(([a, b]) => [x(a), y(b)])) }));
  }
  cycle.slice(1).forEach((to, at) => {
    const [from, there] = [chosen[cycle[at] - 1], chosen[to - 1]];
    arrow(svg, [x(from[0]), y(from[1])], [x(there[0]), y(there[1])], 26);
  });
  const goes = new Set(gone.map((it) => it - 1));
  chosen.forEach(([a, b], s) => {
    const own = { class: "chosen", cx: x(a), cy: y(b), r: inCycle.has(s) ? 6 : 4 };
    svg.append(...(goes.has(s) ? crossed(x(a), y(b)) : [element("circle", own)]));
    const isNamed = table.count <= 12 || inCycle.has(s) || (goes.has(s) && goes.size <= 20);
    if (isNamed) svg.append(element("text", { x: x(a) + 9, y: y(b) - 8 }, String(s + 1)));
  });
  return svg;
}

/** Bounds of each good as intervals. A bound that is withheld has no end. */
export function intervalPicture(goods) {
  const most = Math.max(...goods.flatMap((it) => [it.lower ?? 0, it.upper ?? 0]), 0) || 1;
  const describes = goods.map(
    (it) => `${it.name}: from ${it.lower ?? "withheld"} to ${it.upper ?? "withheld"}`,
  ).join("; ");
  const [wide, height] = [widthHere(), 70 + 34 * goods.length];
  const left = wide < 480 ? 90 : 130;
  const svg = picture(wide, height, "Bounds on demand", describes);
  const size = { left, top: 10, width: wide - left - 30, height: height - 66 };
  const { x } = axes(svg, { ...size, mostX: most, mostY: 1, nameX: "quantity", nameY: "" });
  svg.querySelectorAll("text[text-anchor=end]").forEach((it) => it.remove());
  goods.forEach((it, at) => {
    const row = 28 + 34 * at;
    svg.append(element("text", { x: left - 8, y: row + 4, "text-anchor": "end" }, it.name));
    const [from, to] = [x(it.lower ?? 0), x(it.upper ?? most)];
    svg.append(element("path", { class: "bar", d: `M${from} ${row}H${Math.max(to, from + 1)}` }));
  });
  return svg;
}

/** The cumulative curve of numbers from 0 to 1. */
function cumulative(values, x, y) {
  const sorted = [...values].sort((a, b) => a - b);
  const points = [[x(0), y(0)]];
  sorted.forEach((it, at) => points.push([x(it), y(at / sorted.length)], [x(it), y((at + 1) / sorted.length)]));
  points.push([x(1), y(1)]);
  return pathOf(points);
}

/** The share of units, which are called so, with at most each index, beside that of random behaviour. */
export function indexPicture(people, random, units = "units") {
  const beside = random.length ? `, beside ${random.length} tables of random behaviour on the same budgets` : "";
  const wide = widthHere();
  const isNarrow = wide < 480;
  const high = isNarrow ? Math.max(320, wide) : 480;
  const svg = picture(
    wide,
    high,
    "Efficiency indices",
    `The share of ${people.length} ${units} with at most each index${beside}.`,
  );
  // The key has a line for each on a narrow screen.
  const top = isNarrow ? 54 : 34;
  const frame = {
    left: 64,
    top,
    width: wide - 84,
    height: high - top - 56,
    mostX: 1,
    mostY: 1,
    nameX: "CCEI",
    nameY: "share with at most this CCEI",
  };
  const { x, y } = axes(svg, frame);
  if (random.length) svg.append(element("path", { class: "random", d: cumulative(random, x, y) }));
  svg.append(element("path", { class: "people", d: cumulative(people, x, y) }));
  const second = isNarrow ? [64, 36] : [240, 16];
  const key = [["people", units, 64, 16], ...(random.length ? [["random", "random behaviour", ...second]] : [])];
  for (const [name, says, at, line] of key) {
    svg.append(
      element("path", { class: name, d: `M${at} ${line}h34` }),
      element("text", { x: at + 42, y: line + 4 }, says),
    );
  }
  return svg;
}
