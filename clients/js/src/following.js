/** A document that is followed: its text at first, and then each change of it, as editors take them. */

import { needSignal } from "./aborting.js";
import { readAnew } from "./anew.js";
import { applied, delta, leadTo } from "./changing.js";
import { check } from "./milliseconds.js";
import { Stale } from "./refusals.js";
import { Watch } from "./watch.js";

/**
 * @typedef {import("./changing.js").Step} Step
 * @typedef {import("./document.js").Document} Document
 * @typedef {import("./marks.js").Span} Span
 * @typedef {import("./session.js").Session} Session
 * @typedef {import("./wire.js").Transport} Transport
 */

/**
 * The options of `connect`. The signal ends it: then `next` throws the signal's reason, once.
 * @typedef {import("./connecting.js").Options} Options
 */

/**
 * The whole text, whatever was shown before.
 * @typedef {{reset: Span[], text: string, rev: number}} Reset
 */

/**
 * Steps over the text that was given last, counted in UTF-16 units: a Delta for Quill's `updateContents`.
 * @typedef {{steps: Step[], rev: number}} Change
 */

/**
 * What was read: the spans, and the steps that made them of those before, unless nobody tells.
 * @typedef {{steps: Step[] | undefined, spans: Span[], rev: number}} Read
 */

/**
 * The text of a document at first, and then what changed, whoever edited: a change as soon as it is told of, or one for some
 * at once. Whoever looks seldom is given all that came meanwhile as one.
 *
 * It is an asynchronous iterator with a session and a watch of its own, and asks for nothing before the first `next`. It ends
 * once it is closed, also by a `break`. After a lost connection it goes on with one change from what was given last, if that
 * is told and leads to what is read, and else with a reset. What ends the watch ends it with the same error.
 * @implements {AsyncIterableIterator<Reset | Change>}
 */
export class Following {
  #connect;
  #begin;
  #number;
  #retry;
  #signal;
  /**
   * What was given last.
   * @type {Span[] | undefined}
   */
  #spans;
  #rev = 0;
  /** How many connections of the watch were begun, and how many before what was given last was asked for. */
  #begun = 0;
  #asked = 0;
  /** @type {Promise<Session> | undefined} */
  #session;
  /** @type {Watch | undefined} */
  #watch;
  #isClosed = false;
  /** @type {() => void} */
  #end = () => {};
  /** @type {Promise<void>} */
  #ended;
  #given;

  /**
   * @param {() => Promise<Session>} connect begins the session, which goes on by itself after a lost connection
   * @param {() => Transport | Promise<Transport>} begin a transport over which nothing was asked so far, for the watch
   * @param {number} document
   * @param {Options} options
   */
  constructor(connect, begin, document, { patience, timeout, retry, signal } = {}) {
    check({ patience, timeout, retry });
    needSignal(signal);
    this.#connect = connect;
    this.#begin = begin;
    this.#number = document;
    this.#retry = retry;
    this.#signal = signal;
    this.#ended = new Promise((done) => (this.#end = done));
    this.#given = this.#all();
    signal?.addEventListener("abort", this.#abort);
    if (signal?.aborted) this.close();
  }

  [Symbol.asyncIterator]() {
    return this;
  }

  /** The spans that were given last, or that the steps made of those before. They aren't to be changed. */
  get spans() {
    return this.#spans ?? [];
  }

  /** The text of these spans. */
  get text() {
    return this.spans.map(({ text }) => text).join("");
  }

  /** @returns {Promise<IteratorResult<Reset | Change, void>>} */
  next() {
    return this.#given.next();
  }

  /** @returns {Promise<IteratorResult<Reset | Change, void>>} */
  return() {
    this.close();
    return this.#given.return();
  }

  /** Ends it, and gives its places back. */
  close() {
    this.#isClosed = true;
    this.#end();
    this.#signal?.removeEventListener("abort", this.#abort);
    this.#watch?.close();
    this.#session?.then((session) => session.abandon(), () => {});
  }

  #abort = () => this.close();

  /** @returns {AsyncGenerator<Reset | Change, void, void>} */
  async *#all() {
    try {
      yield* this.#told();
    } catch (error) {
      // What was under way when it was closed fails on its own.
      if (!this.#isClosed) throw error;
    } finally {
      this.close();
    }
    this.#signal?.throwIfAborted();
  }

  /** @returns {AsyncGenerator<Reset | Change, void, void>} */
  async *#told() {
    if (this.#isClosed) return;
    this.#session = this.#connect();
    const session = await Promise.race([this.#session, this.#ended]);
    if (session === undefined || this.#isClosed) return;
    const document = session.document(this.#number);
    this.#watch = new Watch(() => this.#beginWatch(), this.#number, { retry: this.#retry, repeats: true });
    for await (const number of this.#watch) {
      const told = await this.#toldAt(document, number);
      if (told !== undefined) yield told;
    }
  }

  #beginWatch() {
    this.#begun += 1;
    return this.#begin();
  }

  /**
   * What is given for a number that the watch told, if that isn't reached yet. Over another connection it may name another
   * text.
   * @param {Document} document
   * @param {number} number
   * @returns {Promise<Reset | Change | undefined>}
   */
  async #toldAt(document, number) {
    const begun = this.#begun;
    if (number <= this.#rev && this.#asked === begun) return undefined;
    const { steps, spans, rev } = await this.#read(document);
    const isShown = steps?.length === 0 && rev === this.#rev;
    const change = steps && { steps: delta(this.text, steps), rev };
    this.#asked = begun;
    this.#spans = spans;
    this.#rev = rev;
    return isShown ? undefined : change ?? { reset: spans, text: this.text, rev };
  }

  /**
   * What there is now, and how it came about, for which one request is enough over the same connection.
   * @param {Document} document
   * @returns {Promise<Read>}
   */
  async #read(document) {
    try {
      const { steps, rev } = await document.changes(this.#rev);
      return { steps: this.#spans && steps, spans: applied(this.spans, steps), rev };
    } catch (error) {
      if (error instanceof Stale) return this.#readAnew(document);
      throw error;
    }
  }

  /**
   * @param {Document} document
   * @returns {Promise<Read>}
   */
  async #readAnew(document) {
    const { told, spans, rev } = await readAnew(document, this.#rev);
    return { steps: told && leadTo(this.spans, told, spans) ? told : undefined, spans, rev };
  }
}
