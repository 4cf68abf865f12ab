/** One side's line to the demo, which tells it of the others' carets and them of its own. */

/** Milliseconds after which its caret is said again: else it would count as gone. */
const HEARTBEAT = 1_000;

/** Milliseconds until the demo is looked for again. */
const AGAIN = 1_000;

/**
 * A caret as it is told: whose it is, in which document, and the places that last where it is. What is selected is between
 * `tail` and `head`; without that, both are one place.
 * @typedef {{number: number, name: string, colour: number, document: number, head: string, tail: string}} ToldCaret
 */

export class CaretRelay {
  /** @type {WebSocket} */
  #web;
  /** @type {string | undefined} */
  #said;
  /** @type {Map<number, ToldCaret>} */
  #others = new Map();
  #onOthers;

  /** @param {() => void} onOthers is called whenever those of others have changed */
  constructor(onOthers) {
    this.#onOthers = onOthers;
    this.#connect();
    setInterval(() => this.#send(), HEARTBEAT);
  }

  /**
   * The carets that are in a document. A place at its start would be one in any other, too.
   * @param {number} document
   */
  othersIn(document) {
    return new Map([...this.#others].filter(([, caret]) => caret.document === document));
  }

  /** @param {Omit<ToldCaret, "number">} caret one's own */
  say(caret) {
    this.#said = JSON.stringify(caret);
    this.#send();
  }

  /** Says it no longer, so that it is gone soon. */
  leave() {
    this.#said = undefined;
  }

  #connect() {
    this.#web = new WebSocket(new URL("presence", location.href.replace(/^http/, "ws")));
    this.#web.onopen = () => this.#send();
    this.#web.onmessage = ({ data }) => this.#hear(JSON.parse(data));
    this.#web.onclose = () => {
      // Whoever is there is told anew, by another number.
      this.#others.clear();
      this.#onOthers();
      setTimeout(() => this.#connect(), AGAIN);
    };
  }

  #send() {
    if (this.#said !== undefined && this.#web.readyState === WebSocket.OPEN) this.#web.send(this.#said);
  }

  /** @param {ToldCaret[]} news each caret that is new or elsewhere, or the number alone of one that is gone */
  #hear(news) {
    for (const caret of news) {
      if (caret.head === undefined) this.#others.delete(caret.number);
      else this.#others.set(caret.number, caret);
    }
    this.#onOthers();
  }
}
