/** The carets of an editor's people: its own is said to others, and theirs are drawn in it. */

import { OtherCarets } from "./others.js";
import { OwnCaret } from "./own.js";

export class Carets {
  #own;
  #others;

  /**
   * @param {import("prosemirror-view").EditorView} view one with the plugin of `drawnCarets`
   * @param {import("./bound_text.js").BoundText} text its text
   * @param {(places: {head: string, tail: string}) => void} say tells where its own is
   */
  constructor(view, text, say) {
    this.#others = new OtherCarets(view, text);
    this.#own = new OwnCaret(view, text, say);
    document.addEventListener("visibilitychange", () => this.look());
  }

  /** Looks anew over another session, or over none. */
  over() {
    this.#others.lookAgain();
    this.#own.look();
  }

  /** Says and looks for all of them anew: the editor is shown again. */
  lookAgain() {
    this.#others.lookAgain();
    this.#own.sayAgain();
  }

  /**
   * The carets of others that are in this text.
   * @param {Map<number, import("./relay.js").ToldCaret>} told
   */
  become(told) {
    this.#others.become(told);
  }

  /**
   * Follows what happens in the editor.
   * @param {import("prosemirror-state").Transaction} transaction one that was made
   */
  follow(transaction) {
    this.#own.follow(transaction);
    this.#others.follow(transaction);
    this.look();
  }

  /** Looks whether a caret is elsewhere, or came here. */
  look() {
    this.#own.look();
    this.#others.look();
  }
}
