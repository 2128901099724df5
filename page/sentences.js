/**
 * What verdicts say in words: docs/sentences.json, which the build puts in. A sentence is found by what is asked, the
 * verdict, whether levels or shared out units count, and which bound it is; docs/SENTENCES.md has the clause of each.
 */
const TOLD = "{sentences}";

const CONDITIONS = ["levels", "apportioned", "bound"];

export const sentences = () => TOLD.sentences;

const filled = (text, values) => text.replace(/\{(\w+)\}/g, (_, name) => {
  if (!(name in values)) throw new Error(`the sentence wants ${name}`);
  return values[name];
});

/** The one sentence of a verdict where this holds, its `head` and what it `says`, with these values in their places. */
export function sentence(item, verdict, holds = {}, values = {}) {
  const fits = (it) => CONDITIONS.every((name) => it[name] === undefined || it[name] === holds[name]);
  const found = TOLD.sentences.filter((it) => it.item === item && it.verdict === verdict && fits(it));
  if (found.length !== 1) {
    throw new Error(`${found.length} sentences for ${item} ${verdict} ${JSON.stringify(holds)}`);
  }
  return { head: filled(found[0].head, values), says: filled(found[0].says, values) };
}
