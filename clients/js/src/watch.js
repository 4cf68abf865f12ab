/** Told of changes: a daemon says how many settled operations a document has, and again whenever that has risen. */

import { needSignal } from "./aborting.js";
import { NoAnswer, answerOf } from "./answers.js";
import { RETRY, cut } from "./finder.js";
import { check } from "./milliseconds.js";
import { BUSY } from "./refusal_table.js";
import { Ended, Refused } from "./refusals.js";

/** Milliseconds in which somebody who is there has to have said the first number, and between two looks for a daemon that went. */
const PATIENCE = 10_000;
const PAUSE = 50;

/** Milliseconds after which a transport is one that tells of all documents, though there is none of which it tells. */
const MOMENT = 500;

/** @typedef {import("./wire.js").Transport} Transport */

/**
 * `retry`: milliseconds for which a daemon that went is looked for, 10,000 unless it is given, or null not to look; `signal`:
 * ends it.
 * @typedef {{retry?: number | null, signal?: AbortSignal}} Options
 */

/**
 * What a daemon tells over a transport on which nothing else is asked. Of each document the newest number alone is kept, until
 * it is given.
 * @template T
 * @implements {AsyncIterableIterator<T>}
 */
export class Watching {
  #begin;
  #request;
  #given;
  #retry;
  #repeats;
  /**
   * The newest number of each document.
   * @type {Map<number, number>}
   */
  #newest = new Map();
  /**
   * The documents whose number is to be given, in the order in which it came.
   * @type {Set<number>}
   */
  #news = new Set();
  /**
   * The documents of which this transport told.
   * @type {Set<number>}
   */
  #heardOf = new Set();
  /** Whether there was a daemon that told. */
  #wasThere = false;
  #isClosed = false;
  #signal;
  /** Whether the signal's reason is still to be thrown. */
  #isAborted = false;
  /**
   * Why there is nothing more.
   * @type {Error | undefined}
   */
  #end;
  /**
   * Those who wait for a change.
   * @type {(() => void)[]}
   */
  #waiting = [];
  /** @type {Transport | undefined} */
  #transport;

  /**
   * @param {() => Transport | Promise<Transport>} begin a transport over which nothing was asked so far
   * @param {Record<string, any>} request
   * @param {(document: number, rev: number) => T} given what is given for a document's number
   * @param {Options & {repeats?: boolean}} options `repeats`: whether the first number of a document over each transport is given,
   *   also if it is that of before: it may name another text there
   */
  constructor(begin, request, given, { retry = RETRY, repeats = false, signal } = {}) {
    check({ retry });
    needSignal(signal);
    this.#begin = begin;
    this.#request = request;
    this.#given = given;
    this.#retry = retry ?? 0;
    this.#repeats = repeats;
    this.#signal = signal;
    signal?.addEventListener("abort", this.#abort);
    if (signal?.aborted) this.#abort();
    this.#run().catch((error) => this.#finish(error));
  }

  [Symbol.asyncIterator]() {
    return this;
  }

  /** @returns {Promise<IteratorResult<T>>} */
  async next() {
    while (!this.#isClosed && this.#news.size === 0 && this.#end === undefined) {
      await new Promise((/** @type {(value?: unknown) => void} */ done) => this.#waiting.push(done));
    }
    if (this.#isAborted) {
      this.#isAborted = false;
      throw this.#signal?.reason;
    }
    if (this.#isClosed) return { done: true, value: undefined };
    for (const number of this.#news) {
      this.#news.delete(number);
      return { done: false, value: this.#given(number, /** @type {number} */ (this.#newest.get(number))) };
    }
    throw this.#end;
  }

  /** @returns {Promise<IteratorResult<T>>} */
  async return() {
    this.close();
    return { done: true, value: undefined };
  }

  /** Ends it, and gives its place back. */
  close() {
    this.#isClosed = true;
    this.#signal?.removeEventListener("abort", this.#abort);
    this.#wake();
    if (this.#transport !== undefined) cut(this.#transport);
  }

  #abort = () => {
    this.#isAborted = true;
    this.close();
  };

  #wake() {
    for (const done of this.#waiting.splice(0)) done();
  }

  /** @param {Error} error */
  #finish(error) {
    this.#end ??= error;
    this.#wake();
  }

  /** Hears what comes, over one transport after the other. */
  async #run() {
    let until = performance.now();
    while (!this.#isClosed) {
      if (await this.#heard()) until = performance.now() + this.#retry;
      if (this.#isClosed || this.#end !== undefined) return;
      if (performance.now() >= until) throw new Ended("no more changes are told");
      await new Promise((done) => setTimeout(done, PAUSE));
    }
  }

  /** Hears what comes over a transport, to its end: whether it told. */
  async #heard() {
    let transport;
    try {
      transport = await this.#begin();
    } catch {
      return false;
    }
    this.#transport = transport;
    this.#heardOf.clear();
    if (this.#isClosed) cut(transport);
    return this.#all(transport);
  }

  /**
   * @param {Transport} transport
   * @returns {Promise<boolean>}
   */
  #all(transport) {
    return new Promise((done) => {
      let isHeard = false;
      const hear = () => (this.#wasThere = isHeard = true);
      // A file that nobody edited has no document to tell of.
      const timer = this.#request.docs === "all" ? setTimeout(hear, MOMENT) : setTimeout(() => cut(transport), PATIENCE);
      const end = () => {
        clearTimeout(timer);
        done(isHeard);
      };
      transport.onPart = () => {};
      transport.onEnd = end;
      transport.onLine = (line) => {
        clearTimeout(timer);
        if (this.#isTaken(line)) {
          hear();
          return;
        }
        transport.onLine = () => {};
        cut(transport);
        end();
      };
      try {
        transport.send(JSON.stringify(this.#request));
      } catch {
        cut(transport);
        end();
      }
    });
  }

  /**
   * Whether a line is the next number.
   * @param {string} line
   */
  #isTaken(line) {
    try {
      const told = answerOf(line, this.#request);
      if (!(told instanceof Refused)) return this.#isNext(this.#request.doc ?? told.doc, told.rev);
      // A place may come again where there was one.
      if (told.number !== BUSY || !this.#wasThere) this.#finish(told);
    } catch (error) {
      if (!(error instanceof NoAnswer)) throw error;
    }
    return false;
  }

  /**
   * @param {number} number the document's
   * @param {number} rev
   */
  #isNext(number, rev) {
    const newest = this.#newest.get(number) ?? -1;
    if (rev < newest) {
      this.#finish(new Ended("another file is served there now"));
      return false;
    }
    if (rev > newest || (this.#repeats && !this.#heardOf.has(number))) this.#news.add(number);
    this.#heardOf.add(number);
    this.#newest.set(number, rev);
    this.#wake();
    return true;
  }
}

/**
 * The `rev`s of a document's settled operations, each above the one before: one at first, and one after each change, or
 * after some at once. Whoever looks seldom is given the newest alone.
 *
 * It is an asynchronous iterator over a transport of its own, on which nothing else is asked, and it ends once it is
 * closed, also by a `break`, or its signal is aborted: then `next` throws the signal's reason, once. If the transport ends
 * otherwise, another one is taken, for `retry` milliseconds; then it throws `Ended`. It throws `Refused` if the device
 * failed (9), there is no place (8), or the daemon is an earlier one (3).
 * @extends {Watching<number>}
 */
export class Watch extends Watching {
  /**
   * @param {() => Transport | Promise<Transport>} begin a transport over which nothing was asked so far
   * @param {number} document
   * @param {Options & {repeats?: boolean}} options `repeats`: whether the first number over each transport is given, also if it
   *   is that of before: it may name another text there
   */
  constructor(begin, document, options = {}) {
    super(begin, { op: "watch", doc: document }, (_, rev) => rev, options);
  }
}
