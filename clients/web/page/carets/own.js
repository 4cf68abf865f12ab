/** An editor's own caret, which is said to others by places that last. */

import { Ended, Refused, Stale } from "peritext";

import { Paced } from "./paced.js";
import { stayed } from "./spots.js";

/** Milliseconds between two questions for places. */
const PAUSE = 100;

export class OwnCaret {
  #view;
  #text;
  #say;
  /**
   * Where the places are that were said last.
   * @type {import("./spots.js").Spot | undefined}
   */
  #said;
  #hasBeenHere = false;
  #paced = new Paced(() => this.#tell(), PAUSE);

  /**
   * @param {import("prosemirror-view").EditorView} view
   * @param {import("./bound_text.js").BoundText} text
   * @param {(places: {head: string, tail: string}) => void} say
   */
  constructor(view, text, say) {
    this.#view = view;
    this.#text = text;
    this.#say = say;
  }

  /** @param {import("prosemirror-state").Transaction} transaction one that was made */
  follow({ mapping, docChanged }) {
    if (docChanged && this.#said !== undefined) this.#said = stayed(this.#said, mapping);
  }

  /** Says where it is, unless it still is where it was said to be. Somebody who never was in the editor has no caret there. */
  look() {
    this.#hasBeenHere ||= this.#view.hasFocus();
    if (this.#hasToTell()) this.#paced.due();
  }

  /** Says it once more, as where another text's was said meanwhile. */
  sayAgain() {
    this.#said = undefined;
    this.look();
  }

  #hasToTell() {
    const { head, tail } = this.#spot();
    const isElsewhere = this.#said?.head !== head || this.#said.tail !== tail;
    return this.#hasBeenHere && isElsewhere && this.#text.isSettled;
  }

  #spot() {
    const { head, anchor } = this.#view.state.selection;
    return { head, tail: anchor };
  }

  async #tell() {
    if (!this.#hasToTell()) return;
    this.#said = this.#spot();
    try {
      this.#say(await this.#text.anchorsOf(this.#said));
    } catch (error) {
      this.#said = undefined;
      // What others did is here soon. After an end there is another session.
      if (error instanceof Stale) this.#paced.due();
      else if (!(error instanceof Refused || error instanceof Ended)) throw error;
    }
  }
}
