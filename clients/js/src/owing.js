/** The answers that are due, in the order of their requests. */

/** @typedef {import("./wire.js").Answer} Answer */

/** An answer that is due, and its request. */
export class Owed {
  /** How often the request was sent. */
  sent = 0;
  /** Whether nobody waits for the answer any more. */
  isGivenUp = false;
  /** @type {(answer: Answer) => void} */
  resolve = () => {};
  /** @type {(error: Error) => void} */
  reject = () => {};

  /** @param {Record<string, unknown>} request */
  constructor(request) {
    this.request = request;
    /** @type {Promise<Answer>} */
    this.answer = new Promise((resolve, reject) => Object.assign(this, { resolve, reject }));
  }
}

/** All answers that are due. */
export class Due {
  /** @type {Owed[]} */
  #waiting = [];
  /**
   * What was answered, but is to be sent again over the next transport before those that wait.
   * @type {Owed[]}
   */
  #putOff = [];

  get isNone() {
    return this.#waiting.length + this.#putOff.length === 0;
  }

  /** The one that is answered next. */
  get first() {
    return this.#waiting.at(0);
  }

  /** @param {Owed} owed */
  add(owed) {
    this.#waiting.push(owed);
  }

  /** The first one is answered. */
  answered() {
    this.#waiting.shift();
  }

  /**
   * The first one was answered, but isn't done.
   * @param {Owed} owed
   */
  putOff(owed) {
    this.#putOff.push(owed);
  }

  /**
   * Lets go of those that were given up. What is under way is answered all the same: without its place in the order no other
   * answer could be told apart.
   * @param {boolean} isUnderWay whether what waits was sent, over a transport that still brings answers
   */
  letGo(isUnderWay) {
    this.#putOff = this.#putOff.filter(isWanted);
    if (!isUnderWay) this.#waiting = this.#waiting.filter(isWanted);
  }

  /** All of them, in the order in which they are sent again. */
  again() {
    this.#waiting.unshift(...this.#putOff.splice(0));
    return this.#waiting;
  }

  /** All of them, of which none is due any more. */
  takeAll() {
    return [...this.#putOff.splice(0), ...this.#waiting.splice(0)];
  }
}

/** @param {Owed} owed */
function isWanted({ isGivenUp }) {
  return !isGivenUp;
}
