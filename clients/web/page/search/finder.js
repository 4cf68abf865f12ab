/** Where a text stands in an editor: the daemon is asked, and again after each change, whoever made it. */

import { Ended, Refused, Stale } from "peritext";

import { Paced } from "../carets/paced.js";
import { drawFound, foundIn, indexAt } from "./drawn.js";

/** Milliseconds between two questions. */
const PAUSE = 150;

/** The refusal of a daemon that doesn't know the request. */
const UNKNOWN = 3;

export class Finder {
  #view;
  #text;
  #acts;
  /** What is looked for, or an empty text. */
  #sought = "";
  /** Whether it is to be looked for anew, and whether the current stretch is to be brought into view then. */
  #isDue = false;
  #isNew = false;
  #paced = new Paced(() => this.#find(), PAUSE);

  /**
   * @param {import("prosemirror-view").EditorView} view one with the plugin of `drawnSearch`
   * @param {import("../carets/bound_text.js").BoundText} text
   * @param {object} acts
   * @param {() => void} acts.onFound what was asked for newly is shown
   * @param {(error: Error) => void} acts.onFault is told why nothing can be found
   */
  constructor(view, text, acts) {
    this.#view = view;
    this.#text = text;
    this.#acts = acts;
    document.addEventListener("visibilitychange", () => this.#look());
  }

  /** What was found, or nothing while nothing is looked for, or that isn't answered yet. */
  get found() {
    return foundIn(this.#view.state);
  }

  /**
   * Looks for a text from now on; for none if it is empty.
   * @param {string} sought
   */
  seek(sought) {
    if (sought === this.#sought) return;
    this.#sought = sought;
    this.#isNew = true;
    if (sought === "") this.#draw("off");
    else this.lookAnew();
  }

  /** Looks for it anew, as over another session. */
  lookAnew() {
    this.#isDue = true;
    this.#look();
  }

  /** @param {import("prosemirror-state").Transaction} transaction one that was made */
  follow({ docChanged }) {
    this.#isDue ||= docChanged;
    this.#look();
  }

  /**
   * Goes to the next stretch, or to the one before; after the last one comes the first.
   * @param {1 | -1} by
   */
  step(by) {
    const { ranges, current } = this.found ?? { ranges: [], current: -1 };
    if (current < 0) return;
    this.#draw({ ranges, current: (current + by + ranges.length) % ranges.length });
    this.#show();
  }

  #look() {
    if (this.#isDue && this.#sought !== "" && this.#text.isSettled) this.#paced.due();
  }

  async #find() {
    if (!this.#isDue || this.#sought === "" || !this.#text.isSettled) return;
    this.#isDue = false;
    const sought = this.#sought;
    try {
      const ranges = await this.#text.find(sought);
      if (sought === this.#sought && ranges !== undefined) this.#take(ranges);
      else this.lookAnew();
    } catch (error) {
      // What others did is here soon. After an end there is another session.
      if (error instanceof Stale) this.lookAnew();
      else if (error instanceof Ended) this.#isDue = true;
      else if (error instanceof Refused) this.#refuse(error);
      else throw error;
    }
  }

  /** @param {Refused} refused */
  #refuse(refused) {
    // An earlier daemon isn't asked at each key.
    if (refused.number === UNKNOWN) this.#sought = "";
    this.#acts.onFault(refused);
  }

  /** @param {import("./drawn.js").Range[]} ranges */
  #take(ranges) {
    const { found } = this;
    const from = this.#isNew || found === undefined ? this.#view.state.selection.from : found.ranges[found.current]?.from;
    this.#draw({ ranges, current: indexAt(ranges, from ?? 0) });
    if (!this.#isNew) return;
    this.#isNew = false;
    this.#show();
    this.#acts.onFound();
  }

  #draw(told) {
    drawFound(told)(this.#view.state, this.#view.dispatch);
  }

  /** Brings the current stretch into view. */
  #show() {
    this.#view.dom.querySelector(".found.current")?.scrollIntoView({ block: "nearest" });
  }
}
