/**
 * An editor of one text. It stays while another text is shown in its place: what waits there is sent, and its caret, its
 * selection and what can be undone are there again once it is shown.
 */

import * as model from "prosemirror-model";
import * as state from "prosemirror-state";
import * as transform from "prosemirror-transform";
import { EditorView } from "prosemirror-view";
import { bind } from "peritext/prosemirror";

import { Authors } from "./authors/authors.js";
import { drawnAuthors } from "./authors/drawn.js";
import { BoundText } from "./carets/bound_text.js";
import { Carets } from "./carets/carets.js";
import { drawnCarets } from "./carets/drawn.js";
import { clipboardParser } from "./clipboard.js";
import { showState } from "./drawn_selection.js";
import { history } from "./history.js";
import { schema } from "./schema.js";
import { drawnSearch } from "./search/drawn.js";
import { Finder } from "./search/finder.js";
import { shownSelection } from "./shown_selection.js";
import { spotlight } from "./comments/spotlight.js";

/** @typedef {import("../../js/src/document.js").Document} Document */

export class TextEditor {
  #name;
  #acts;
  #binding;
  #isAwaited = false;
  /** Where it is shown, as soon as it is. */
  #place = document.createElement("div");
  /** @type {EditorView | undefined} */
  view;
  #text;
  /** @type {Carets | undefined} */
  carets;
  /** @type {Authors | undefined} */
  authors;
  /** @type {Finder | undefined} */
  finder;

  /**
   * @param {number} number the document's
   * @param {string} name who writes here
   * @param {object} acts
   * @param {() => void} acts.onOpen it was read for the first time
   * @param {() => void} acts.onChange
   * @param {(error: Error) => void} acts.onError
   * @param {(event: KeyboardEvent) => boolean} acts.key
   * @param {(id: string) => void} acts.comment a comment was clicked
   * @param {{onFound: () => void, onFault: (error: Error) => void}} acts.search
   * @param {(caret: {head: string, tail: string, document: number}) => void} acts.say
   * @param {import("./authors/writers.js").Writers} acts.writers
   */
  constructor(number, name, acts) {
    this.number = number;
    this.#name = name;
    this.#acts = acts;
    this.#place.className = "editor";
  }

  /**
   * Shows it in a place, and nothing else there.
   * @param {HTMLElement} place
   */
  show(place) {
    place.replaceChildren(this.#place);
  }

  /** Brings the focus to it, as soon as it is read, unless it is elsewhere by then. */
  focus() {
    this.#isAwaited = this.view === undefined;
    this.view?.focus();
  }

  /** What it shows, or nothing before the first reading. */
  get doc() {
    return this.view?.state.doc;
  }

  /** How many edits aren't known to be on the daemon's disk. */
  get waiting() {
    return this.#binding?.waiting ?? 0;
  }

  get rev() {
    return this.#binding.rev;
  }

  /** The document, of the session that there is; nothing between two of them. */
  get document() {
    return this.#text?.document;
  }

  async pull() {
    await this.#binding.pull();
  }

  async settled() {
    await this.#binding.settled();
  }

  /**
   * Opens it over a session, or goes on over another one.
   * @param {Document} [document] nothing between two sessions
   */
  async over(document) {
    if (document !== undefined && this.#binding === undefined) await this.#open(document);
    else if (document !== undefined) await this.#binding.resume(document);
    if (this.view === undefined) return;
    this.#text.document = document;
    this.carets.over();
    this.authors.look();
    this.finder.lookAnew();
  }

  async #open(document) {
    const { onOpen, onError, key, comment, say, search, writers } = this.#acts;
    const binding = await bind({ model, state, transform }, schema, document, { onError });
    const plugins = [binding.plugin, history(), spotlight(), shownSelection(), drawnAuthors((by) => writers.writer(by)), drawnSearch(), drawnCarets()];
    this.#binding = binding;
    this.view = new EditorView(this.#place, {
      state: state.EditorState.create({ doc: binding.doc, plugins }),
      attributes: ({ doc }) => this.#attributes(doc),
      handleKeyDown: (_, event) => key(event),
      handleClick: (_, __, { target }) => this.#click(target, comment),
      handleDOMEvents: { focus: () => this.carets.look() },
      clipboardParser,
      dispatchTransaction: (transaction) => this.#take(transaction),
    });
    this.#text = new BoundText(this.view, binding);
    this.authors = new Authors(this.view, this.#text, writers);
    this.finder = new Finder(this.view, this.#text, search);
    this.carets = new Carets(this.view, this.#text, (places) => say({ ...places, document: this.number }));
    onOpen();
    if (this.#isAwaited && document.activeElement === document.body) this.view.focus();
  }

  #take(transaction) {
    showState(this.view, this.view.state.apply(transaction));
    this.carets.follow(transaction);
    this.authors.follow(transaction);
    this.finder.follow(transaction);
    this.#acts.onChange();
  }

  /** The click goes on to put the caret there. */
  #click(target, comment) {
    const id = target.closest?.("[data-comment]")?.dataset.comment;
    if (id !== undefined) comment(id);
    return false;
  }

  /** The invitation to type is the style's: it is no part of the document. */
  #attributes(doc) {
    return {
      role: "textbox",
      "aria-multiline": "true",
      "aria-label": `What ${this.#name} writes`,
      "aria-placeholder": "Write here…",
      spellcheck: "false",
      class: doc.childCount === 1 && doc.textContent === "" ? "empty" : "",
    };
  }
}
