/** Calls of the worker. Work is stopped by ending the worker; the next call begins a new one. */

function bytesOfBase64(text) {
  return Uint8Array.from(atob(text), (it) => it.charCodeAt(0));
}

// How long the worker is about one part of a panel, in milliseconds.
const SLICE = 100;

export class Stopped extends Error {}

export class Client {
  /** Over the bytes of the module, and the address of the worker's script. */
  constructor(module, address) {
    [this.module, this.address] = [module, address];
    this.worker = null;
    this.waiting = new Map();
    this.number = 0;
  }

  /** The client of the texts that the page has of them. */
  static of(moduleText, workerText) {
    const script = new Blob([workerText], { type: "text/javascript" });
    return new Client(bytesOfBase64(moduleText), URL.createObjectURL(script));
  }

  /** Another client with a worker of its own: what that is asked keeps no question of this one waiting. */
  another() {
    return new Client(this.module, this.address);
  }

  #begin() {
    this.worker = new Worker(this.address);
    this.worker.onmessage = ({ data }) => this.#take(data);
    this.worker.onerror = (event) => this.#fail(new Error(event.message || "the worker ended"));
    this.#send("load", this.module).catch(() => {});
  }

  #take(data) {
    const asked = this.waiting.get(data.id);
    if (!asked) return;
    this.waiting.delete(data.id);
    if (data.error) asked.reject(new Error(data.error));
    else asked.resolve(data.answer);
  }

  #fail(error) {
    for (const { reject } of this.waiting.values()) reject(error);
    this.waiting.clear();
    this.worker?.terminate();
    this.worker = null;
  }

  #send(kind, given) {
    const id = ++this.number;
    const answer = new Promise((resolve, reject) => this.waiting.set(id, { resolve, reject }));
    this.worker.postMessage({ id, kind, given });
    return answer;
  }

  #ask(kind, given) {
    if (!this.worker) this.#begin();
    return this.#send(kind, given);
  }

  /**
   * The status, what is written and what is told, for the words of a command over files; and as `stated` what `rp`
   * itself writes, where the answer is the wider edition's, or as `refused` what it tells. An `edition`, `rp` or
   * `rp-wide`, is asked alone.
   */
  answer(words, files, edition = null) {
    return this.#ask("one", { words, files, edition });
  }

  /**
   * Answers each household, of which all have the further files; `onPart` takes what came since it was called last. The
   * worker gets some at a time, so that other questions are answered between them. An `edition` is asked alone.
   */
  async panel(words, households, onPart, more = [], edition = null) {
    let [at, size] = [0, 1];
    while (at < households.length) {
      const began = performance.now();
      const some = households.slice(at, at + size).map(({ household, bytes }) => ({ household, bytes }));
      onPart(await this.#ask("panel", { words, households: some, more, edition }));
      at += some.length;
      const took = Math.max(performance.now() - began, 1);
      size = Math.max(1, Math.min(2 * size, Math.round((size * SLICE) / took)));
    }
  }

  /** Answers the households of a long file, by the call of panels: its status, its table and what is told. */
  households(words, bytes) {
    return this.#ask("households", { words, bytes });
  }

  get isBusy() {
    return this.waiting.size > 0;
  }

  stop() {
    this.#fail(new Stopped("stopped"));
  }
}
