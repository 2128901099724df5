/** The page: what somebody has, the places for the files, and what is shown when they are answered. */
import { tableAnswers } from "./answers.js";
import { Client, Stopped } from "./client.js";
import { commandForm } from "./command.js";
import { labelled, make, textOf } from "./dom.js";
import { facts, range, unitsBy } from "./facts.js";
import { otherAnswers } from "./others.js";
import { panelQuestions } from "./panel_questions.js";
import { Panel, purchasesOf } from "./panels.js";
import { tableQuestions } from "./questions.js";
import { countsMean, meansOf, offeredSays, parseFault } from "./reports.js";
import { Runs, workSays } from "./runs.js";
import { Sheet, fitOf, longFiles, placeInFile, placeInWords, raggedRecord, splitHouseholds } from "./sheets.js";
import { Slot } from "./slots.js";

const EXAMPLES = JSON.parse(textOf("examples"));
const KINDS = [
  {
    key: "table",
    says: "prices and purchases",
    slots: [
      {
        key: "table",
        file: "table",
        title: "Table, or panel",
        mapped: true,
        note:
          "A CSV file: p_NAME and q_NAME for each good, a row for each observation. A column of ids, such as " +
          "subject, makes it a panel.",
        examples: ["experiment.csv", "contradiction.csv", "levels.csv", "panel.csv"],
      },
    ],
  },
  {
    key: "budgets",
    says: "choices from budgets",
    slots: [
      {
        key: "budgets",
        file: "budgets",
        title: "Budgets",
        note: "p_NAME for each good, and w, the income.",
        examples: ["budgets.csv"],
      },
      {
        key: "choices",
        file: "choices",
        title: "Choices",
        note: "budget, q_NAME for each good, and n, how many times it was chosen.",
        examples: ["choices.csv"],
      },
    ],
  },
  {
    key: "menus",
    says: "choices from menus",
    slots: [
      {
        key: "menus",
        file: "menus",
        title: "Choices from menus",
        note: "menu, choice and n.",
        examples: ["menus.csv"],
      },
    ],
  },
  {
    key: "production",
    says: "a firm's inputs and outputs",
    slots: [
      {
        key: "technology",
        file: "technology",
        title: "Technology",
        note: "w_NAME and x_NAME for each input, y, and possibly p.",
        examples: ["technology.csv"],
      },
      {
        key: "outputs",
        file: "asked",
        title: "New input prices and outputs",
        note: "w_NAME, and y.",
        examples: ["outputs.csv"],
      },
    ],
  },
];

const client = Client.of(textOf("module"), textOf("worker"));
// Goodness of fit may take long, and keeps no other question waiting.
const fitting = client.another();
const at = (id) => document.getElementById(id);
const [leastUnits, mostUnits] = range("random", "--per");
const per = make("input", { type: "number", min: leastUnits, max: mostUnits, size: 12, onchange: () => asked() });
const runs = new Runs();
let [kind, slots, run] = [KINDS[0], [], runs.begin()];

/**
 * What a run shows of its work. Of a run that is no longer the page's nothing is shown: another file, another kind or
 * another assignment of columns has come, and what stands on the page is of that.
 */
function showsOf(own) {
  const only = (show) => (...given) => own.isCurrent() && show(...given);
  const tell = only((text) => {
    at("answers").hidden = false;
    at("status").textContent = text;
    if (own.takesFocus()) at("answers-head").focus();
  });
  const progress = only((done, all, began, what) => {
    const left = ((performance.now() - began) / done) * (all - done);
    at("progress").value = done / all;
    at("status").textContent = `${done} of ${all} ${what} done, ${(left / 1000).toFixed(0)} s left`;
  });
  const busy = only((isBusy) => (at("work").hidden = !isBusy));
  /**
   * Shows that work is going on, and hides it when it has ended or was stopped; what it gives is nothing then. With
   * `saysTime` it is said how long the work takes, where it does not say itself how far it is.
   */
  const working = async (work, saysTime = false) => {
    const began = performance.now();
    const says = () => tell(workSays((performance.now() - began) / 1000));
    if (saysTime) says();
    const clock = saysTime ? setInterval(says, 5000) : 0;
    busy(true);
    try {
      return await work();
    } catch (error) {
      const isStopped = error instanceof Stopped;
      tell(isStopped ? "Stopped. What was done by then is shown." : `No result: ${error.message}.`);
      return null;
    } finally {
      clearInterval(clock);
      busy(false);
    }
  };
  const results = only((...parts) => at("results").replaceChildren(...parts));
  const questions = only((...parts) => {
    at("questions").replaceChildren(...parts);
    at("more").hidden = !parts.length;
  });
  return { tell, progress, working, results, questions };
}

/** Begins a run: what was answered is gone, and work on it is stopped. */
function cleared() {
  run = runs.begin();
  for (const it of [client, fitting]) if (it.isBusy) it.stop();
  at("work").hidden = at("answers").hidden = at("more").hidden = true;
  for (const it of ["status", "results", "questions"]) at(it).replaceChildren();
}

function refused(shows, told) {
  const fault = parseFault(told);
  const slot = slots.find((it) => fault && it.sheet && it.file.name === fault.file);
  const where = slot ? placeInFile(fault, slot.sheet.records, slot.mapping) : null;
  const place = where ? placeInWords(where) : "";
  if (where) {
    const isOfChoices = ["choices", "menus"].includes(slot.form.file);
    const ofCounts = isOfChoices ? countsMean(fault.fault, where, slot.sheet.header) : "";
    fault.means = slot.sheet.advice(ofCounts || meansOf(fault.fault, where));
  }
  shows.tell(`Error: ${told.split("\n")[0]}`);
  shows.results(
    ...(fault ? [make("p", { className: "fault", textContent: `${fault.fault}${place}. ${fault.means}` })] : []),
  );
  if (slot) {
    slot.show(fault);
    at(`fault-${slot.form.key}`)?.scrollIntoView({ block: "center" });
  }
}

async function answerTable(slot, own) {
  const [file, shows, hasOwnMoney] = [slot.file, showsOf(own), Boolean(slot.mapping?.hasOwnMoney)];
  const given = await shows.working(() => client.answer(["analyse", file.name], [file]), true);
  if (!given || !own.isCurrent()) return;
  if (given.status !== 0) {
    refused(shows, given.told);
    return;
  }
  slot.show(null, true);
  const table = purchasesOf(file.bytes);
  const lines = hasOwnMoney ? offeredSays(table) : null;
  if (lines?.head) {
    shows.tell(`Error: ${lines.head}`);
    shows.results(make("p", { className: "fault", textContent: lines.says }));
    return;
  }
  const certificate = async () => (await client.answer(["certify", file.name], [file])).output;
  shows.tell(`${file.name}: done.`);
  window.firstAnswer ??= performance.now();
  const says = lines ? [make("p", { textContent: lines.says })] : [];
  const fit = { client: fitting, file };
  shows.results(...says, tableAnswers(given.output, table, certificate, hasOwnMoney, given.stated, fit));
  shows.questions(...tableQuestions(client, file, table, shows, hasOwnMoney));
}

async function answerPanel(slot, own) {
  const began = performance.now();
  const [sheet, mapping] = [slot.sheet, slot.mapping];
  const records = sheet.changed();
  const ragged = raggedRecord(records);
  if (ragged) {
    const { record, fields, names } = ragged;
    showsOf(own).tell(
      `Error: record ${record} has ${fields} fields, and there are ${names} names of columns. Nothing is ` +
        "completed, cut or shifted: mend the record, and take the file again.",
    );
    return;
  }
  const households = splitHouseholds(records, mapping);
  const files = longFiles(records, mapping, households);
  // A column of the long file stands behind that of the households.
  const placeOf = ({ record, column }) =>
    placeInFile({ record, column: Math.max(column - 1, 0) }, records, mapping);
  const place = (fault, numbers) => placeInWords(placeInFile(fault, records, mapping, numbers));
  const called = { name: sheet.header[mapping.household], units: unitsBy(sheet.header[mapping.household]) };
  const shows = { ...showsOf(own), place, called };
  const hasLevels = mapping.names(sheet.header).includes("e");
  const { hasOwnMoney } = mapping;
  const advice = sheet.advice("");
  const given = { files, shows, place: placeOf, called, advice, hasOwnMoney, hasLevels };
  const panel = new Panel(client, fitting, households, given);
  slot.show(null, true);
  shows.tell(`${households.length} ${called.units}.`);
  shows.results(panel.place);
  const isWhole = await shows.working(async () => {
    await panel.run(began);
    return true;
  });
  const waited = `in ${((performance.now() - began) / 1000).toFixed(1)} s`;
  if (isWhole) {
    const counts = `${households.length} ${called.units} and ${panel.random.length} random behaviours`;
    shows.tell(`${counts} ${waited}: done.`);
  }
  panel.show(true);
  if (households.length) shows.questions(...panelQuestions(client, households, shows));
}

async function answerOthers(own) {
  if (!slots.every((it) => it.sheet && it.isTaken)) return;
  const [files, shows] = [slots.map((it) => it.file), showsOf(own)];
  if (new Set(files.map((it) => it.name)).size < files.length) {
    files.forEach((it, place) => (it.name = `${slots[place].form.key}.csv`));
  }
  const given = await shows.working(() => otherAnswers(client, kind.key, files, per.value), true);
  if (!given || !own.isCurrent()) return;
  if (given.answer.status !== 0) {
    refused(shows, given.answer.told);
    return;
  }
  slots.forEach((it) => it.show(null, true));
  shows.tell("Done.");
  shows.results(...given.parts);
}

function ready(slot, isPressed = false) {
  if (isPressed) run.press();
  if (kind.key !== "table") return answerOthers(run);
  return slot.mapping.household >= 0 ? answerPanel(slot, run) : answerTable(slot, run);
}

/** Asks anew by another number of units, where all files are there. */
function asked() {
  cleared();
  answerOthers(run);
}

function choose(chosen) {
  kind = chosen;
  cleared();
  slots = kind.slots.map((form) => new Slot(form, EXAMPLES, { onChange: cleared, onReady: ready }));
  const units = kind.key === "budgets" || kind.key === "menus"
    ? [make("div", { className: "row" }, labelled("Units to round shares to (empty: no rounding)", per))]
    : [];
  at("slots").replaceChildren(...units, ...slots.map((it) => it.place));
}

/**
 * Gives files that were dropped beside the places to those that they fit by their columns' names, or in their order.
 */
async function takeDropped(files) {
  if (files.length > slots.length) {
    const names = files.map((it) => it.name).join(", ");
    const places = slots.length === 1
      ? "Drop one file at a time. Rows of several subjects belong in one file, with a column of ids."
      : `There are boxes for ${slots.length} files: drop each file on its own box.`;
    slots[0].refuse(
      `${files.length} files were dropped together, so none was taken: ${names}.`,
      `${places} For a certificate, take its table first. Then open Check a certificate below the results.`,
    );
    return;
  }
  if (slots.length === 1 || files.some((it) => it.size > 2 ** 22)) {
    slots[0].takeFile(files[0]);
    return;
  }
  const free = [...slots];
  for (const file of files.slice(0, slots.length)) {
    const header = new Sheet(file.name, new Uint8Array(await file.arrayBuffer())).header;
    const fit = (slot) => fitOf(header, facts().kinds.find((it) => it.name === slot.form.file));
    free.sort((a, b) => fit(b) - fit(a));
    free.shift().takeFile(file);
  }
}

KINDS.forEach((it, number) => {
  const radio = make(
    "input",
    { type: "radio", name: "kind", id: `kind-${it.key}`, checked: number === 0, onchange: () => choose(it) },
  );
  at("kinds").append(make("label", {}, radio, ` ${it.says}`));
});
at("stop").addEventListener("click", () => [client, fitting].forEach((it) => it.stop()));
at("command").append(...commandForm(client, EXAMPLES));
const choosesFile = (event) => Boolean(event.target.closest?.("input[type=file]"));
document.addEventListener("dragover", (event) => choosesFile(event) || event.preventDefault());
document.addEventListener("drop", (event) => {
  const isTaken = event.defaultPrevented || choosesFile(event);
  if (!choosesFile(event)) event.preventDefault();
  const files = [...(event.dataTransfer?.files ?? [])];
  if (!isTaken && files.length) takeDropped(files);
});
// On paper nothing can be unfolded, so what is folded in the answers is open while the page is printed. A report whose
// evidence the certificate has too is printed only where it was opened.
let unfolded = [];
addEventListener("beforeprint", () => {
  unfolded = [...document.querySelectorAll("#answers details:not([open], .report)")];
  unfolded.forEach((it) => (it.open = true));
});
addEventListener("afterprint", () => unfolded.forEach((it) => (it.open = false)));
choose(KINDS[0]);
// The example that the page opens with; how long its answer took can be read by whoever measures.
slots[0].take("experiment.csv", new TextEncoder().encode(EXAMPLES["experiment.csv"]));
