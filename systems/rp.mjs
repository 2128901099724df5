#!/usr/bin/env node
// The command `rp` for Node on any system: the words, files, streams and statuses of the program, over rp.wasm. By the
// name rp-wide.mjs this file is the command `rp-wide`, and by rp-panel.mjs it is `rp-panel`.
import { closeSync, openSync, readFileSync, readSync, writeSync } from "node:fs";

const [REFUSED, WRITE_FAULT, NO_MEMORY, NO_TEXT] = [4, 5, 6, 7];
const isNamed = (name) => import.meta.url.endsWith(`/${name}.mjs`);
/** The command's name in its own lines. */
const NAME = isNamed("rp-panel") ? "rp-panel" : "rp";
/** No answer: a file beside this one is missing or damaged, or the module stopped. The program has no such end. */
const NO_MODULE = 70;

/** Reads a file, or as much of it as shows that it is too long; nothing where the system fails. */
function bytesOf(name, most) {
  let file;
  try {
    file = openSync(name, "r");
    const parts = [];
    let length = 0;
    while (length < most) {
      const part = new Uint8Array(Math.min(65536, most - length));
      const count = readSync(file, part);
      if (count === 0) break;
      parts.push(part.subarray(0, count));
      length += count;
    }
    return Buffer.concat(parts);
  } catch (error) {
    if (error.code === "ENOMEM") throw error;
    return null;
  } finally {
    if (file !== undefined) closeSync(file);
  }
}

/** Writes all bytes to a stream, waiting where it is full; whether the system took them. */
function writes(stream, bytes) {
  let at = 0;
  while (at < bytes.length) {
    try {
      at += writeSync(stream, bytes, at);
    } catch (error) {
      if (error.code !== "EAGAIN") return false;
      Atomics.wait(new Int32Array(new SharedArrayBuffer(4)), 0, 0, 5);
    }
  }
  return true;
}

/** The command that this file is named for: how the library answers it, and how much of a file it reads at most. */
function named(library, { MOST_LONG, MOST_READ }) {
  if (isNamed("rp-panel")) {
    return {
      most: MOST_LONG,
      files: (words) => library.panelFiles(words),
      answer: (words, files) => library.panel(words, files),
    };
  }
  return {
    most: MOST_READ,
    files: (words) => library.files(words),
    answer: (words, files) => library.answer(words, files, isNamed("rp-wide")),
  };
}

const isAlike = (one, other) =>
  one.status === REFUSED && other.status === REFUSED && Buffer.from(one.told).equals(other.told);

/**
 * Answers where the first of these names cannot be read. The command refuses a file before it reads the next; so an
 * earlier one may have to be refused all the same: that is so where the answer is the same whatever stands in the files
 * from there on. Each kind of file is refused for one reason where it is empty, and for another where it is `{}`.
 */
function answerUnread(command, words, files, names) {
  const filled = (text) =>
    command.answer(words, [...files, ...names.map((name) => ({ name, bytes: Buffer.from(text) }))]);
  const refused = filled("");
  return isAlike(refused, filled("{}")) ? refused : command.answer(words, files);
}

/** Reads the files that the words name, in their order, and answers. Of words that are no line there are none. */
function answer(command, words) {
  const wanted = command.files(words);
  if (wanted.status === NO_MEMORY) throw new RangeError("memory is short");
  const names = [...new Set(wanted.names)];
  const files = [];
  for (const [at, name] of names.entries()) {
    const bytes = bytesOf(name, command.most);
    if (!bytes) return answerUnread(command, words, files, names.slice(at));
    files.push({ name, bytes });
  }
  return command.answer(words, files);
}

/** Writes a line of the command's own on standard error, and gives the status that it stands with. */
function ends(line, status) {
  writes(2, Buffer.from(`${NAME}: ${line}\n`));
  return status;
}

async function main() {
  const shared = await import("./rp.js");
  const library = await shared.load(readFileSync(new URL("rp.wasm", import.meta.url)));
  let given;
  try {
    given = answer(named(library, shared), process.argv.slice(2));
  } catch (error) {
    if (error instanceof shared.NoText) return NO_TEXT;
    throw error;
  }
  writes(2, given.told);
  return writes(1, given.output) ? given.status : ends("write failed", WRITE_FAULT);
}

/** The end without an answer: memory is short, or rp.js or rp.wasm is missing or damaged, or the module stopped. */
function failed(error) {
  if (error instanceof RangeError || error?.code === "ENOMEM") return ends("out of memory", NO_MEMORY);
  const reason = String(error?.message ?? error).split("\n")[0];
  return ends(`no answer: ${reason}; unpack the archive again, all its files into one folder`, NO_MODULE);
}

process.exitCode = await main().catch(failed);
