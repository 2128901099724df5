/**
 * The library as a module that a page and Node share: `load` takes the bytes of rp.wasm, and what it gives answers the
 * words of a command over files in memory, and tells which files the words name. Nothing is kept between calls, and
 * nothing is read or written besides.
 */

/** One more than the most bytes that a file of any kind may have: a longer one is refused by its length alone. */
export const MOST_READ = 16777217;

/** The same of a long file of households. */
export const MOST_LONG = 67108865;

/** A file whose name or a word that is no text: it has a half of a pair of surrogates, or a zero byte. */
export class NoText extends Error {}

/** The module stopped in the middle of a call, which no input is known to do. The next call begins anew. */
export class Stopped extends Error {}

const texts = new TextDecoder();
const bytesOf = new TextEncoder();

/** Gives the UTF-8 of a text, ended by a zero byte. */
function ended(text) {
  if (!text.isWellFormed?.() && /[\uD800-\uDBFF](?![\uDC00-\uDFFF])|(?<![\uD800-\uDBFF])[\uDC00-\uDFFF]/.test(text)) {
    throw new NoText("a word or a name is no text");
  }
  if (text.includes("\0")) throw new NoText("a word or a name has a zero byte");
  return bytesOf.encode(`${text}\0`);
}

function joined(parts) {
  const all = new Uint8Array(parts.reduce((sum, it) => sum + it.length, 0));
  let at = 0;
  for (const it of parts) {
    all.set(it, at);
    at += it.length;
  }
  return all;
}

/** Memory of the module that one call takes and gives back. */
class Room {
  constructor(exports) {
    this.exports = exports;
    this.taken = [];
  }

  /** Takes so many bytes; their place, or 0 where there is no memory. */
  take(count) {
    const at = this.exports.malloc(BigInt(Math.max(count, 1)));
    if (at !== 0n) this.taken.push(at);
    return Number(at);
  }

  /** Takes room for these bytes and puts them there. */
  put(bytes) {
    const at = this.take(bytes.length);
    if (at) new Uint8Array(this.exports.memory.buffer, at, bytes.length).set(bytes);
    return at;
  }

  copy(at, count) {
    return new Uint8Array(this.exports.memory.buffer, at, count).slice();
  }

  number(at) {
    return Number(new DataView(this.exports.memory.buffer).getBigUint64(at, true));
  }

  giveBack() {
    for (const at of this.taken.reverse()) this.exports.free(at);
    this.taken = [];
  }
}

/** The answer where memory is short, by the program of that name. */
function noMemory(program) {
  return { status: 6, output: new Uint8Array(), told: bytesOf.encode(`${program}: out of memory\n`) };
}

/** Asks once, with this much room for the output and for what is told. */
function ask(room, frame, outputRoom, toldRoom) {
  const { words, names, sizes, bytes, files, call } = frame;
  const places = [words, names, sizes, bytes].map((it) => room.put(it));
  const [output, told, lengths] = [room.take(outputRoom), room.take(toldRoom), room.take(16)];
  if (![...places, output, told, lengths].every(Boolean)) return null;
  const given = [places[0], words.length, places[1], names.length, places[2], files, places[3], bytes.length];
  const numbers = [...given, output, outputRoom, told, toldRoom, lengths, lengths + 8].map(BigInt);
  const status = room.exports[call](...numbers);
  const [outputLength, toldLength] = [room.number(lengths), room.number(lengths + 8)];
  const isWhole = outputLength <= outputRoom && toldLength <= toldRoom;
  const texts = isWhole ? [room.copy(output, outputLength), room.copy(told, toldLength)] : [];
  return { status, outputLength, toldLength, isWhole, texts };
}

/** Asks a call once which files the words name, with this much room for their names. */
function askNames(room, call, words, namesRoom) {
  const [given, names, length] = [room.put(words), room.take(namesRoom), room.take(8)];
  if (![given, names, length].every(Boolean)) return null;
  const status = room.exports[call](...[given, words.length, names, namesRoom, length].map(BigInt));
  const namesLength = room.number(length);
  return { status, namesLength, names: namesLength <= namesRoom ? room.copy(names, namesLength) : null };
}

class Library {
  constructor(module) {
    this.module = module;
    this.instance = null;
  }

  /** Whether the module answers as `rp-wide`, which one of an early release does not. */
  get hasWide() {
    return WebAssembly.Module.exports(this.module).some((it) => it.name === "rp_answer_wide");
  }

  /**
   * Answers the words after the program's name over files, each `{ name, bytes }` with a `Uint8Array`, of which no more
   * are given than the command names. Gives `{ status, output, told }`, the last two as bytes. With `isWide` it answers
   * as `rp-wide`: what `rp` withholds is given wherever evidence of it is found, and `fit` and `checkfit` are answered.
   */
  answer(words, files = [], isWide = false) {
    return this.#answer(isWide ? "rp_answer_wide" : "rp_answer", words, files, MOST_READ, 65536) ?? noMemory("rp");
  }

  /**
   * Answers the words of `rp-panel` in the same way: a row of verdicts for each household of a long file. The table is
   * rarely longer than the file, and then the first call has room for it.
   */
  panel(words, files = []) {
    const longest = Math.max(65536, ...files.map((it) => it.bytes.length));
    return this.#answer("rp_panel", words, files, MOST_LONG, longest) ?? noMemory("rp-panel");
  }

  /** What a call answers, at first with this much room for the output; nothing where memory is short. */
  #answer(call, words, files, mostRead, firstRoom) {
    const sizes = new DataView(new ArrayBuffer(8 * files.length));
    const bytes = files.map((it) => it.bytes.subarray(0, mostRead));
    bytes.forEach((it, at) => sizes.setBigUint64(8 * at, BigInt(it.length), true));
    const frame = {
      words: joined(words.map(ended)),
      names: joined(files.map((it) => ended(it.name))),
      sizes: new Uint8Array(sizes.buffer),
      bytes: joined(bytes),
      files: files.length,
      call,
    };
    let [outputRoom, toldRoom] = [firstRoom, 4096];
    for (;;) {
      const given = this.#call((room) => ask(room, frame, outputRoom, toldRoom));
      if (!given) return null;
      if (given.isWhole) return { status: given.status, output: given.texts[0], told: given.texts[1] };
      outputRoom = Math.max(outputRoom, given.outputLength);
      toldRoom = Math.max(toldRoom, given.toldLength);
    }
  }

  /** The same with the texts as strings. */
  texts(words, files = [], isWide = false) {
    const { status, output, told } = this.answer(words, files, isWide);
    return { status, output: texts.decode(output), told: texts.decode(told) };
  }

  /**
   * Tells which files the words after the program's name name, in their order: `{ status, names }` with the status 0.
   * There is no name where the words are no line (2) or memory is short (6).
   */
  files(words) {
    return this.#files("rp_files", words);
  }

  /** The same of the words of `rp-panel`: the long file, and that of new prices where bounds are asked. */
  panelFiles(words) {
    return this.#files("rp_panel_files", words);
  }

  #files(call, words) {
    const framed = joined(words.map(ended));
    let namesRoom = 4096;
    for (;;) {
      const given = this.#call((room) => askNames(room, call, framed, namesRoom));
      if (!given) return { status: noMemory("rp").status, names: [] };
      if (given.names) {
        const names = texts.decode(given.names).split("\0").slice(0, -1);
        return { status: given.status, names };
      }
      namesRoom = given.namesLength;
    }
  }

  #call(asks) {
    this.instance ??= new WebAssembly.Instance(this.module, {});
    const room = new Room(this.instance.exports);
    try {
      const given = asks(room);
      room.giveBack();
      return given;
    } catch (error) {
      this.instance = null;
      throw new Stopped(`the module stopped: ${error.message}`, { cause: error });
    }
  }
}

/** Makes the library of the bytes of rp.wasm, or of a module that is compiled already. */
export async function load(source) {
  return new Library(source instanceof WebAssembly.Module ? source : await WebAssembly.compile(source));
}
