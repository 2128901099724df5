// The module's memory, in Node: many calls do not make it grow, and memory that is refused ends a call with the status
// for it.
// usage: node check.mjs FOLDER CALLS HEAP, where FOLDER has rp.wasm and rp.js, CALLS is JSON, words and files of each
// call, and HEAP is a module of the heap alone.
import { readFileSync } from "node:fs";
import { pathToFileURL } from "node:url";

const [folder, file, heap] = process.argv.slice(2);
const { load } = await import(pathToFileURL(`${folder}/rp.js`));
const bytes = readFileSync(`${folder}/rp.wasm`);
const decoded = ([words, files]) => [
  words,
  Object.entries(files).map(([name, data]) => ({ name, bytes: Buffer.from(data, "base64") })),
];
const calls = JSON.parse(readFileSync(file)).map(decoded);
const small = calls.filter(([, files]) => files.every((it) => it.bytes.length < 10000));
const [ROUNDS, NO_MEMORY] = [10000, 6];
let wrong = 0;

function expect(isSo, what) {
  if (!isSo) {
    wrong += 1;
    console.log(`wrong: ${what}`);
  }
}

const pages = (library) => library.instance.exports.memory.buffer.byteLength / 65536;

/** Gives the place and the value of a number of a module in its format (LEB128). */
function numberAt(data, at) {
  let [value, shift, end] = [0, 0, at];
  for (;;) {
    value += (data[end] & 127) * 2 ** shift;
    if (data[end++] < 128) return [value, end];
    shift += 7;
  }
}

/** Gives a module whose memory may not grow past what it begins with and so many pages. */
function limited(data, more) {
  let at = 8;
  for (;;) {
    const id = data[at];
    const [length, start] = numberAt(data, at + 1);
    if (id === 5) {
      const [least] = numberAt(data, start + 2);
      const number = (value) => [value & 127 | 128, value >> 7 & 127 | 128, value >> 14];
      const section = [1, 1, ...number(least), ...number(least + more)];
      return Buffer.concat(
        [data.subarray(0, at), Buffer.from([5, section.length, ...section]), data.subarray(start + length)],
      );
    }
    at = start + length;
  }
}

/** Takes and frees blocks of every kind while another is in use, as the library does within a call. */
function checkHeap({ malloc, free, memory }) {
  const held = malloc(1n);
  const edgesOf = (at) => [4, 5, 6, 7].flatMap((part) => [-1, 0, 1].map((by) => part * 2 ** at + by));
  const edges = [...Array(22).keys()].flatMap(edgesOf);
  const sizes = [...new Set([...Array(4200).keys(), ...edges.filter((it) => it >= 4200)])].sort((a, b) => a - b);
  const lost = sizes.filter((size) => {
    const first = malloc(BigInt(size));
    free(first);
    const again = malloc(BigInt(size));
    free(again);
    return again !== first;
  });
  expect(lost.length === 0, `blocks of ${lost.length} sizes are freed and not taken again: ${lost.slice(0, 40)}`);
  const few = sizes.filter((it) => it < 70000);
  const taken = () => few.map((size) => ({ at: malloc(BigInt(size)), size })).sort((a, b) => Number(a.at - b.at));
  const blocks = taken();
  const ends = blocks.map(({ at, size }) => at + BigInt(size));
  const misplaced = blocks.filter(({ at }, it) => at % 16n !== 0n || (it > 0 && ends[it - 1] > at));
  expect(misplaced.length === 0, `${misplaced.length} blocks overlap others, or begin at no multiple of 16`);
  const before = memory.buffer.byteLength;
  for (const { at } of blocks) free(at);
  for (const { at } of taken()) free(at);
  for (let pair = 0; pair < 1000000; pair++) free(malloc(20n));
  const more = (memory.buffer.byteLength - before) / 65536;
  expect(more === 0, `memory grew by ${more} pages over blocks that were freed, and a million pairs of 20 bytes`);
  free(held);
  const again = sizes.length - lost.length;
  console.log(`the heap: blocks of ${again} of ${sizes.length} sizes are taken again within a call`);
}

/** Grows a list as the library does, an item of 32 bytes at a time, with a small block for each that is given back. */
function checkGrowth({ malloc, free, realloc, memory }) {
  const held = malloc(1n);
  const before = memory.buffer.byteLength;
  let [list, room] = [malloc(128n), 4];
  const fill = (at, value) => new BigUint64Array(memory.buffer, Number(list) + 32 * at, 4).fill(BigInt(value));
  for (let at = 0; at < 1000000; at++) {
    if (at === room) list = realloc(list, BigInt(32 * (room *= 2)));
    fill(at, at);
    free(malloc(20n));
  }
  const numbers = new BigUint64Array(memory.buffer, Number(list), 4000000);
  expect(numbers.every((it, at) => it === BigInt(at >> 2)), "a list that grew has other items");
  const [after, most] = [memory.buffer.byteLength - before, 32 * room * 1.1];
  expect(after < most, `a list of ${32 * room} bytes took ${after}`);
  const [first, last] = [malloc(1000n), malloc(1000n)];
  expect(realloc(first, 2000n) !== first, "a block with another behind it grew where it stands");
  expect(realloc(last, 500n) === last && realloc(last, 900n) === last, "a block that has the room was moved");
  expect(realloc(last, 0xffff0001n) === 0n, "there is memory past the last address");
  free(list);
  expect(malloc(BigInt(32 * room)) === list, "a block that grew is not taken again");
  free(held);
  console.log(`the heap: a list of ${32 * room} bytes took ${after} as it grew`);
}

checkHeap((await WebAssembly.instantiate(bytes, {})).instance.exports);
if (heap) {
  for (const check of [checkHeap, checkGrowth]) {
    check((await WebAssembly.instantiate(readFileSync(heap), {})).instance.exports);
  }
}
const library = await load(bytes);
for (const [words, files] of calls) library.answer(words, files);
const most = pages(library);
const namesOf = (words) => JSON.stringify(library.files(words));
for (const [words, files] of calls) {
  const { status, names } = library.files(words);
  const isNamed = status !== 0 || files.every((it) => names.includes(it.name));
  expect(isNamed && (status === 0 || names.length === 0), `the files of ${words}: ${namesOf(words)}`);
}
expect(namesOf(["demand", "--json", "t.csv", "é.csv"]) === '{"status":0,"names":["t.csv","é.csv"]}', "demand's files");
expect(namesOf(["trial", "1", "2", "3"]) === '{"status":0,"names":[]}', "a trial's files");
const panelNamesOf = (words) => JSON.stringify(library.panelFiles(words));
const ofBounds = panelNamesOf(["l.csv", "--keep", "a", "--demand", "é.csv", "--wide"]);
expect(ofBounds === '{"status":0,"names":["l.csv","é.csv"]}', "the files of bounds of a panel");
expect(panelNamesOf(["l.csv", "--pump"]) === '{"status":0,"names":["l.csv"]}', "the file of a panel");
expect(panelNamesOf(["--pump", "l.csv"]) === '{"status":2,"names":[]}', "the files of words that are none of rp-panel");
expect(namesOf(["pairs"]) === '{"status":2,"names":[]}', "the files of words that are no line");
expect(namesOf(["fit", "--json", "é.csv"]) === '{"status":0,"names":["é.csv"]}', "the file of fit");
expect(namesOf(["checkfit", "t.csv", "c.json"]) === '{"status":0,"names":["t.csv","c.json"]}', "the files of checkfit");
expect(namesOf(["checkfit", "t.csv"]) === '{"status":2,"names":[]}', "the files of words that checkfit does not take");
const long = "x".repeat(10000);
expect(namesOf(["check", long, long]) === JSON.stringify({ status: 0, names: [long, long] }), "long names");
const held = "p_a,q_a,p_b,q_b\n4194304,2097151,1,4194304\n1,1747627,3145727,2796203\n1,4194304,4194304,2097151\n";
const withheld = [["analyse", "t.csv"], [{ name: "t.csv", bytes: Buffer.from(held) }]];
const [stated, filled] = [false, true].map((isWide) => library.texts(...withheld, isWide).output);
const isFilled = stated.includes("homothetic withheld") && !filled.includes("withheld");
expect(isFilled, `what rp withholds: ${stated} by the wide call: ${filled}`);
expect(library.texts([], [], true).told.startsWith("usage: rp-wide "), "the usage of the wide call");
// Each of two choices contradicts the other, so one of the two can be kept.
const pair = { name: "t.csv", bytes: Buffer.from("p_a,q_a,p_b,q_b\n1,1,2,2\n2,2,1,1\n") };
const fitted = library.texts(["fit", "t.csv"], [pair], true);
expect(fitted.status === 0 && fitted.output.includes("\nkept 1 of 2\n"), `fit by the wide call: ${fitted.output}`);
const made = { name: "c.json", bytes: library.answer(["fit", "t.csv", "--json"], [pair], true).output };
const tested = library.texts(["checkfit", "t.csv", "c.json"], [pair, made], true);
expect(tested.output === "accepted items 9\n", `checkfit by the wide call: ${tested.output}${tested.told}`);
expect(library.texts(["fit", "t.csv"], [pair]).status === 2, "fit by the call that does not take it");
const fresh = await load(bytes);
for (const [words, files] of small) fresh.answer(words, files);
const before = pages(fresh);
const began = performance.now();
for (let at = 0; at < ROUNDS; at++) fresh.answer(...small[at % small.length]);
const took = performance.now() - began;
expect(pages(fresh) === before, `memory grew from ${before} to ${pages(fresh)} pages over ${ROUNDS} calls`);
console.log(
  `${ROUNDS} calls took ${Math.round(took)} ms and left the memory at ${before} pages of 64 KB; the largest inputs ` +
    `want ${most}`,
);

let refused = 0;
for (const more of [0, 1, 2, 4, 8, 16, 32]) {
  const tight = await load(limited(bytes, more));
  for (const [words, files] of calls.slice(0, 60).concat(calls.slice(-12))) {
    const wide = library.texts(words, files);
    const given = tight.texts(words, files);
    if (given.status === NO_MEMORY) {
      refused += 1;
      expect(
        given.output === "" && given.told === "rp: out of memory\n",
        `refused memory: ${words}: ${JSON.stringify(given)}`,
      );
    } else {
      expect(JSON.stringify(given) === JSON.stringify(wide), `refused memory: ${words}: another answer`);
    }
  }
}
expect(refused > 0, "no call was refused memory");
console.log(`memory that may not grow: ${refused} calls end with status ${NO_MEMORY}, all others answer as ever`);
process.exitCode = wrong ? 1 : 0;
