/** Where a session goes on whose transport has ended. */

import { hasMade, isEdit } from "./again.js";
import { after } from "./milliseconds.js";
import { Ended, Refused } from "./refusals.js";

/**
 * @typedef {import("./again.js").Request} Request
 * @typedef {import("./session.js").Session} Session
 * @typedef {import("./wire.js").Transport} Transport
 */

/** Milliseconds for which it is looked for, unless the caller says otherwise, and between two looks. */
export const RETRY = 10_000;
const PAUSE = 50;

/** Looks for another transport to the same file. */
export class Finder {
  #again;
  #retry;
  #begin;
  /**
   * An edit that was answered: the same file has it.
   * @type {Request | undefined}
   */
  #made;
  /**
   * Since when nothing was answered, though it was looked for.
   * @type {number | undefined}
   */
  #since;

  /**
   * @param {() => Promise<Transport>} again tries once
   * @param {number} retry milliseconds
   * @param {(transport: Transport) => Session} begin a session to ask with
   */
  constructor(again, retry, begin) {
    this.#again = again;
    this.#retry = retry;
    this.#begin = begin;
  }

  /**
   * A request was answered.
   * @param {Request} request
   * @param {import("./wire.js").Answer | Refused} told
   */
  answered(request, told) {
    this.#since = undefined;
    if (isEdit(request) && request.token !== undefined && !(told instanceof Refused)) this.#made = request;
  }

  /** Nothing waits any more: whoever asks later has all the time anew. */
  rest() {
    this.#since = undefined;
  }

  /**
   * Another transport; nothing if it is over before. `Ended` if none comes in time, or another file is there.
   * @param {() => boolean} isOver
   */
  async find(isOver) {
    // It was found, and ended again without an answer.
    if (this.#since !== undefined) await pause(PAUSE);
    while (!isOver()) {
      this.#since ??= performance.now();
      const left = this.#since + this.#retry - performance.now();
      if (left <= 0) throw new Ended(`no more answers come, and none came again for ${this.#retry} milliseconds`);
      const found = await this.#tried(left);
      if (found !== undefined) return found;
      await pause(PAUSE);
    }
  }

  /** @param {number} left milliseconds */
  async #tried(left) {
    const until = performance.now() + left;
    const transport = await within(this.#again(), left, cut);
    if (transport === undefined || this.#made === undefined) return transport;
    const isSame = await within(hasMade(this.#begin(transport), this.#made), until - performance.now());
    if (isSame) return transport;
    cut(transport);
    if (isSame === false) throw new Ended("another file is served there now");
  }
}

/** @param {number} time milliseconds */
function pause(time) {
  return new Promise((done) => setTimeout(done, time));
}

/**
 * What is promised, if that comes in time; else nothing, and what comes later is let go.
 * @template T
 * @param {Promise<T>} promised
 * @param {number} time milliseconds
 * @param {(late: T) => void} [letGo]
 * @returns {Promise<T | undefined>}
 */
async function within(promised, time, letGo = () => {}) {
  let isLate = false;
  let callOff = () => {};
  const tooLate = new Promise((done) => {
    callOff = after(time, () => {
      isLate = true;
      done(undefined);
    });
  });
  const came = promised.then((it) => (isLate ? letGo(it) : it)).catch(() => undefined);
  try {
    return /** @type {T | undefined} */ (await Promise.race([came, tooLate]));
  } finally {
    callOff();
  }
}

/**
 * Cuts off a transport, as far as it can be.
 * @param {Transport} transport
 */
export function cut(transport) {
  if (transport.abandon !== undefined) transport.abandon();
  else transport.close();
}
