/** The answers on one table: each verdict in words, its evidence, the picture, the report and the certificate. */
import { button, cardsAt, drawAnew, folded, keepFile, labelled, listOf, make, printed, say, tableOf } from "./dom.js";
import { goneOf } from "./fit.js";
import { fitSection } from "./fit_cards.js";
import { budgetPicture, fileOf } from "./pictures.js";
import {
  about,
  cycleSentences,
  decimalOf,
  numbersIn,
  parseReport,
  productSentences,
  sumSentences,
  walkInWords,
} from "./reports.js";
import { WIDE, WIDE_MEANS, isWideTest, reportBy } from "./says.js";
import { sentence } from "./sentences.js";

const WITHHELD = "withheld";
const card = cardsAt("h3");

/** Lists of the evidence, a row for each observation; labels have a column where they are not the numbers. */
function byObservation(table, columns) {
  const isLabelled = table.labels.some((label, at) => label !== String(at + 1));
  const own = (label) => (isLabelled ? [label] : []);
  const rows = table.labels.map(
    (label, at) => [String(at + 1), ...own(label), ...Object.values(columns).map((list) => list.split(" ")[at] ?? "")],
  );
  return tableOf(["observation", ...own("label"), ...Object.keys(columns)], rows, "evidence by observation");
}

const walkOf = (list) => walkInWords(numbersIn(list));

function garpCard(item, table, levels) {
  const title = "GARP: could one consumer have made these choices?";
  const verdict = sentence("garp", item.verdict, { levels });
  if (item.verdict === "holds") {
    const ranks = folded(
      "The evidence",
      say(
        "The rank of an observation is the number of observations that it is revealed preferred to. A revealed " +
          "preference never leads to a higher rank, and a strict one leads to a lower rank. Therefore no cycle has " +
          "a strict one.",
      ),
      byObservation(table, { rank: item.ranks }),
    );
    const one = table.count === 1
      ? [say("One observation alone can violate nothing: the tests on it hold whatever was bought.")]
      : [];
    return card(title, verdict, "good", ...one, ranks);
  }
  return card(
    title,
    verdict,
    "bad",
    listOf(cycleSentences(numbersIn(item.cycle), table)),
    say("Along this cycle each bundle is at least as good as the next, and at least once strictly better."),
  );
}

/** The bound that an index is: 1 or below it, attained or not. */
export function boundOf(fraction, attained) {
  return `${fraction === "1" ? "1" : "below 1"}, ${attained === "yes" ? "attained" : "not attained"}`;
}

function efficiencyCard(item, table, levels) {
  const [fraction, , attained] = item.verdict.split(" ");
  const verdict = sentence(
    "efficiency",
    "index",
    { levels, bound: boundOf(fraction, attained) },
    { index: fraction, about: about(fraction) },
  );
  const ranks = { "rank below the CCEI": item.below };
  if (item["at ranks"]) ranks["rank at the CCEI"] = item["at ranks"];
  const where = item["at ranks"] ? "below the CCEI, and at the CCEI itself" : "below the CCEI";
  const evidence = [
    say(
      `GARP holds at every level ${where}. A revealed preference at these levels never leads to a higher rank, and a ` +
        "strict one leads to a lower rank:",
    ),
    byObservation(table, ranks),
  ];
  if (item.above) evidence.push(say(`GARP is violated at every level above by the cycle ${walkOf(item.above)}.`));
  if (item["at cycle"]) {
    evidence.push(say(`GARP is violated at the CCEI itself by the cycle ${walkOf(item["at cycle"])}.`));
  }
  return card("CCEI: how far are the choices from GARP?", verdict, "", folded("The evidence", ...evidence));
}

function afriatCard(item, table, levels) {
  const title = "Afriat's numbers: a utility that explains the choices";
  const word = item.verdict.split(" ")[0];
  const verdict = sentence("afriat", word, { levels });
  if (word === "model") {
    const spent = levels ? "the part of what was spent that counts" : "what was spent";
    const how = say(
      "The utility of a bundle is a minimum over the observations. For each observation, the utility below is added " +
        "to lambda times an amount of money. The amount is what the bundle costs at the prices of the observation, " +
        `less ${spent}, counted ${table.unit}.`,
    );
    return card(
      title,
      verdict,
      "good",
      folded("The evidence", how, byObservation(table, { utility: item.utility, lambda: item.lambda })),
    );
  }
  if (word === "none") {
    const round = `The reason is the cycle ${walkOf(item.cycle)}.`;
    return card(title, verdict, "bad", say(round));
  }
  return card(title, verdict, "", say(`The program stopped ${item.verdict.replace(`${WITHHELD} `, "")}.`));
}

// What the values of a test that holds show, by its name.
const VALUES = {
  homothetic: () =>
    "The value of each observation is at most the value of any other one times a ratio: what the bundle costs at the " +
    "other prices, over what was spent there. Therefore no cycle has a product of ratios below 1.",
  quasilinear: (table) =>
    "The value of each observation is at most the value of any other one plus a difference: what the bundle costs at " +
    `the other prices, less what was spent there, counted ${table.unitOfCosts}. Therefore no cycle has a sum below 0.`,
};

/**
 * The card of the homothetic or the quasilinear test; `steps` says its cycle in words, and `isWide` whether `rp` itself
 * withholds the verdict.
 */
function testCard(name, title, item, table, levels, steps, isWide = false) {
  const word = item.verdict.split(" ")[0];
  const own = sentence(name, word, { levels });
  const verdict = isWide ? { ...own, head: `${own.head} ${WIDE}` } : own;
  const marked = isWide ? [make("p", { className: "note", textContent: WIDE_MEANS })] : [];
  if (word === "holds") {
    const columns = { value: item.values };
    if (item.values.includes("/")) columns.decimal = item.values.split(" ").map((it) => decimalOf(it, 6)).join(" ");
    const shows = folded("The evidence", say(VALUES[name](table)), byObservation(table, columns));
    return card(title, verdict, "good", ...marked, shows);
  }
  if (word === "violated") {
    const evidence = folded("The evidence", listOf(steps(numbersIn(item.cycle), table)));
    return card(title, verdict, "bad", ...marked, evidence);
  }
  return card(title, verdict, "", say(`The program stopped at ${item.verdict.replace(`${WITHHELD} `, "")}.`));
}

/** What of a picture can be switched off: its name, and what it is in words. */
const SWITCHES = [["gone", "Mark observations that would have to go"], ["shrunk", "Draw budgets shrunk to the CCEI"]];

/** The budgets that the CCEI shrinks until the cycle that binds it breaks: the index, and whose they are. */
function shrunkBy(efficiency) {
  const [index] = efficiency.verdict.split(" ");
  const of = [...new Set(numbersIn(efficiency.above))];
  return index === "1" || !of.length ? null : { index, of };
}

/**
 * The picture of two goods, with the curve of equal utility through the observation that is chosen; `mark` takes the
 * observations that would have to go.
 */
function pictureOf(report, table, name, hasLines) {
  if (table.goods.length !== 2) return null;
  const { garp, afriat, efficiency } = report.items;
  const marks = { gone: [], shrunk: shrunkBy(efficiency) };
  const isOn = { gone: true, shrunk: true };
  const model = afriat.verdict === "model"
    ? { utility: numbersIn(afriat.utility), lambda: numbersIn(afriat.lambda), through: 0 }
    : null;
  const figure = make("figure");
  const draw = () => {
    const shown = { gone: isOn.gone ? marks.gone : [], shrunk: isOn.shrunk ? marks.shrunk : null };
    const svg = budgetPicture(table, numbersIn(garp.cycle), model, hasLines, shown);
    const held = table.levels ? " What counts of each budget, by its level, is the thin dashed line." : "";
    const caption =
      "Budget lines, what was chosen on them, and the violating cycle where there is one. Drawn with rounded " +
      `numbers; the verdicts are not.${held}${marksSay(shown)}`;
    const keep = button("Keep the picture as SVG", () => keepFile(`${name}.svg`, fileOf(svg), "image/svg+xml"));
    const through = model && make(
      "select",
      { onchange: () => ((model.through = Number(through.value)), draw()) },
      ...table.labels.map(
        (label, at) => make(
          "option",
          {
            value: at,
            textContent: `${at + 1}${label === String(at + 1) ? "" : ` (${label})`}`,
            selected: at === model.through,
          },
        ),
      ),
    );
    const row = make(
      "div",
      { className: "row" },
      keep,
      ...(through ? [labelled("Curve of equal utility through observation", through)] : []),
    );
    drawAnew(figure, svg, make("figcaption", { textContent: caption }), row, ...switches());
  };
  const switches = () => SWITCHES.filter(([it]) => marks[it]?.of?.length || marks[it]?.length).map(([it, says]) => {
    const box = make("input", {
      type: "checkbox",
      checked: isOn[it],
      onchange: () => ((isOn[it] = box.checked), draw()),
    });
    return make("div", { className: "row" }, make("label", {}, box, ` ${says}`));
  });
  draw();
  return { figure, mark: (gone) => ((marks.gone = gone), draw()) };
}

/** What the marks of a picture are, for its caption. */
function marksSay({ gone, shrunk }) {
  const crosses = gone.length
    ? " A cross marks an observation that would have to go, so that the others satisfy GARP (Houtman-Maks)."
    : "";
  const lines = shrunk
    ? ` Lines of dashes and dots are the budgets along the binding cycle, shrunk to the CCEI ${shrunk.index}.`
    : "";
  return crosses + lines;
}

/**
 * Everything that the answer of `analyse` says, for reading. `certificate` gives the certificate's text; with own money
 * at each observation the quasilinear test, which adds money of several, is left out. `stated` is what `rp` itself
 * writes, where the answer is the wider edition's. `fit` has the client and the file of the indices of goodness of fit,
 * where they are shown too.
 */
export function tableAnswers(output, table, certificate, hasOwnMoney = false, stated = null, fit = null) {
  const report = parseReport(output);
  const { garp, afriat, efficiency, homothetic, quasilinear } = report.items;
  const levels = Boolean(report.levels);
  const notes = [];
  if (levels) {
    notes.push(
      say(
        "The table has efficiency levels. GARP and Afriat's numbers use them; the other verdicts count the whole " +
          "expenditure.",
      ),
    );
  }
  if (hasOwnMoney) {
    notes.push(
      say(
        "Prices are exchanged intercepts, so each observation has its own unit of money. The quasilinear test adds " +
          "money of several observations, so it is left out. In the report and the certificate, its verdict is about " +
          "the exchanged prices alone.",
      ),
    );
  }
  const cards = [
    garpCard(garp, table, levels),
    efficiencyCard(efficiency, table, levels),
    afriatCard(afriat, table, levels),
    testCard(
      "homothetic",
      "Homothetic: a preference that keeps its order when bundles are multiplied",
      homothetic,
      table,
      levels,
      productSentences,
      isWideTest(output, stated),
    ),
  ];
  if (!hasOwnMoney) {
    const title = "Quasilinear: a worth in units of money";
    cards.push(testCard("quasilinear", title, quasilinear, table, levels, sumSentences));
  }
  const keep = button(
    "Make a certificate and keep it",
    async () => keepFile("certificate.json", await certificate(), "application/json"),
  );
  const picture = pictureOf(report, table, "budgets", hasOwnMoney);
  const figure = picture?.figure;
  return make(
    "div",
    {},
    ...notes,
    make(
      "div",
      { className: figure ? "beside" : "" },
      make("div", { className: figure ? "cards" : "cards many" }, ...cards),
      figure,
    ),
    ...fitBelow(fit, table, hasOwnMoney, picture?.mark),
    folded(reportBy(stated), printed(output)),
    make("div", { className: "row" }, keep),
  );
}

/** Goodness of fit below the verdicts, where it is asked; what would have to go is marked in the picture. */
function fitBelow(fit, table, hasOwnMoney, mark) {
  if (!fit) return [];
  if (table.levels) {
    return [say("The indices of goodness of fit are defined without levels: leave the column e out for them.")];
  }
  return [fitSection(fit, table, hasOwnMoney, ({ kept }) => mark?.(goneOf(kept)))];
}
