/** How long nothing comes while something is due. */

import { LONGEST } from "./milliseconds.js";

/** Milliseconds without a byte, unless the caller says otherwise. */
export const TIMEOUT = 30_000;

/** Milliseconds for a second look: if this program itself stood still, what came meanwhile is read first. */
const MOMENT = 100;

/** Tells once that for so long something was due and no byte came. */
export class Silence {
  #timeout;
  #tell;
  /**
   * When the last byte came, or the first request since nothing was due; nothing while nothing is due.
   * @type {number | undefined}
   */
  #since;
  #isOver = false;
  /** @type {ReturnType<typeof setTimeout> | undefined} */
  #timer;

  /**
   * @param {number | null} timeout milliseconds
   * @param {() => void} tell
   */
  constructor(timeout, tell) {
    this.#timeout = timeout ?? Infinity;
    this.#tell = tell;
  }

  /** Something is due from now on, unless it was already. */
  begin() {
    if (this.#isOver) return;
    this.#since ??= performance.now();
    this.#timer ??= this.#after(this.#timeout, () => this.#look());
  }

  /** A byte came. */
  heard() {
    if (this.#since !== undefined) this.#since = performance.now();
  }

  /** Nothing is due any more. The timer sees that when it ends: it isn't set anew for each request. */
  end() {
    this.#since = undefined;
  }

  /** Nothing will be due again. */
  close() {
    this.#isOver = true;
    this.#since = undefined;
    clearTimeout(this.#timer);
  }

  #look() {
    this.#timer = undefined;
    const since = this.#since;
    if (since === undefined) return;
    const left = since + this.#timeout - performance.now();
    if (left > 0) this.#timer = this.#after(left, () => this.#look());
    else this.#timer = this.#after(MOMENT, () => this.#lookAgain(since));
  }

  /** @param {number} since */
  #lookAgain(since) {
    if (this.#since !== since) return this.#look();
    this.close();
    this.#tell();
  }

  /**
   * @param {number} milliseconds
   * @param {() => void} act
   */
  #after(milliseconds, act) {
    const timer = setTimeout(act, Math.min(Math.ceil(milliseconds), LONGEST));
    // A program of which nothing else is left to do may end.
    /** @type {any} */ (timer).unref?.();
    return timer;
  }
}
