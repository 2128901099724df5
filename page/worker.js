/**
 * The worker: holds the module, and answers one call, or some households of a panel, so that the page stays alive.
 */

let loading = null;
let library = null;

/** What stands in the answer of a command where it withholds something of which the wider edition seeks evidence. */
const WITHHELD = {
  analyse: /^homothetic withheld /m,
  certify: /"item":"homothetic","withheld":/,
  trial: /^homothetic withheld/m,
  demand: /"withheld":| withheld /,
  welfare: /"withheld":| withheld /,
  cost: / lower withheld /,
};

/** The commands over choices from budgets, and what is told where `rp` refuses some that the wider edition takes. */
const OVER_CHOICES = ["random", "checkrandom", "patches"];
const REFUSED = /^rp: (?:TooManyPatches|TooManyCombinations|TooManyTypes)\b/m;

/** What is answered as `rp-wide` where the module is of a release before that: as where the words are no command. */
const NO_WIDE = { status: 2, output: "", told: "this module does not have rp-wide\n" };

/**
 * The answer of `rp`; where that withholds something, of the wider edition, and as `stated` what `rp` itself writes;
 * and where it refuses choices which the wider edition may take, of that, and as `refused` what `rp` itself tells. With
 * an `edition` that one alone is asked.
 */
function asked(words, files, edition) {
  if (edition === "rp-wide" && library.hasWide === false) return NO_WIDE;
  if (edition) return library.texts(words, files, edition === "rp-wide");
  const own = library.texts(words, files);
  if (own.status === 4 && OVER_CHOICES.includes(words[0]) && REFUSED.test(own.told)) {
    return { ...library.texts(words, files, true), refused: own.told };
  }
  if (own.status !== 0 || !WITHHELD[words[0]]?.test(own.output)) return own;
  return { ...library.texts(words, files, true), stated: own.output };
}

function answerOne({ words, files, edition }) {
  return asked(words, files, edition);
}

function answerPanel({ words, households, more, edition }) {
  return households.map(({ household, bytes }) => ({
    household,
    ...asked(words, [{ name: "table.csv", bytes }, ...more], edition),
  }));
}

/** The table of the households of a long file. */
function answerHouseholds({ words, bytes }) {
  const { status, output, told } = library.panel(words, [{ name: words[0], bytes }]);
  const text = new TextDecoder();
  return { status, output: text.decode(output), told: text.decode(told) };
}

onmessage = async ({ data: { id, kind, given } }) => {
  try {
    if (kind === "load") loading = load(given);
    library = await loading;
    const answers = { load: () => null, one: answerOne, panel: answerPanel, households: answerHouseholds };
    postMessage({ id, answer: answers[kind](given) });
  } catch (error) {
    postMessage({ id, error: error.message });
  }
};
