/** What a daemon tells of all its documents, over one connection: each that is followed is told its own numbers of that. */

import { Ended } from "peritext";

export class ToldOfAll {
  #watch;
  /**
   * How many operations of each document are settled.
   * @type {Map<number, number>}
   */
  #newest = new Map();
  /**
   * Why nothing more is told.
   * @type {unknown}
   */
  #end;
  /**
   * Those who wait for a change.
   * @type {Set<(value?: unknown) => void>}
   */
  #waiting = new Set();

  /** @param {import("peritext").WatchMany} watch */
  constructor(watch) {
    this.#watch = watch;
    this.#read().catch((error) => this.#finish(error));
  }

  /**
   * The numbers of a document, each above the one before. Whoever looks seldom is given the newest alone. What ends the watch ends
   * them with the same error.
   * @param {number} number the document's
   * @param {AbortSignal} signal
   */
  async *of(number, signal) {
    let given = -1;
    while (!signal.aborted) {
      const rev = this.#newest.get(number) ?? -1;
      if (rev > given) yield (given = rev);
      else if (this.#end !== undefined) throw this.#end;
      else await this.#change(signal);
    }
  }

  close() {
    this.#watch.close();
  }

  async #read() {
    for await (const { doc, rev } of this.#watch) {
      this.#newest.set(doc, rev);
      this.#wake();
    }
    this.#finish(new Ended("it was closed"));
  }

  #finish(error) {
    this.#end = error;
    this.#wake();
  }

  #wake() {
    for (const done of this.#waiting) done();
  }

  /** @param {AbortSignal} signal */
  async #change(signal) {
    let wake;
    await new Promise((done) => {
      wake = done;
      this.#waiting.add(done);
      signal.addEventListener("abort", done);
    });
    this.#waiting.delete(wake);
    signal.removeEventListener("abort", wake);
  }
}
