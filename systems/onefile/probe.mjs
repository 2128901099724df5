// Asks the probe what probe_main.c asks, by Node's own WebAssembly, and prints the same lines.
// usage: node probe.mjs MODULE
import { readFileSync } from "node:fs";

const bytesOf = new TextEncoder();
const textOf = new TextDecoder("latin1");
const module = new WebAssembly.Module(readFileSync(process.argv[2]));
const bytes = Uint8Array.from({ length: 700 }, (_, at) => (at * at * 31 + at * 7 + 3) & 255);
const sizes = new Uint8Array(new BigUint64Array([300n, 400n]).buffer);

/** Puts bytes into the memory of an instance, and gives their place. */
function put(exports, given) {
  const at = Number(exports.malloc(BigInt(given.length)));
  new Uint8Array(exports.memory.buffer, at, given.length).set(given);
  return at;
}

function ask(words, room) {
  const { exports } = new WebAssembly.Instance(module, {});
  const parts = [bytesOf.encode(`${words}\0`), bytesOf.encode("a.csv\0b.csv\0"), sizes, bytes];
  const [said, named, sized, content] = parts.map((it) => put(exports, it));
  const [output, told] = [put(exports, new Uint8Array(4096).fill(46)), put(exports, new Uint8Array(8).fill(46))];
  const lengths = put(exports, new Uint8Array(16));
  const given = [said, 2, named, 12, sized, 2, content, 700, output, room, told, 8, lengths, lengths + 8];
  try {
    const status = exports.rp_answer(...given.map(BigInt));
    const [written, explained] = new BigUint64Array(exports.memory.buffer.slice(lengths, lengths + 16));
    const shown = (at, count) => textOf.decode(new Uint8Array(exports.memory.buffer, at, count));
    console.log(`${status} ${written} ${explained} ${shown(output, room + 1)}|${shown(told, 8)}`);
  } catch {
    console.log(`70 0 0 ${".".repeat(room + 1)}|${".".repeat(8)}`);
  }
}

for (const words of ["w", "m", "d", "D", "o", "s"]) ask(words, 900);
ask("w", 10);
