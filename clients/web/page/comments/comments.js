/** The comments of one side: where they stand in the text that it shows, and what they say. */

import { addComment, commentAt, commentsOf, removeComment } from "../commands.js";
import { SILENT, lineOf, threadsIn } from "../lists/remarks.js";
import { remembered } from "../remembered.js";
import { Chips } from "./chips.js";
import { ResolvedStyle } from "./resolved.js";
import { NONE, showComment, shownComment } from "./spotlight.js";
import { ThreadPanel } from "./thread.js";

export class Comments {
  #person;
  #remarks;
  #editor;
  #tell;
  #refuse;
  #chips;
  #panel;
  #style;
  #threadsIn = remembered(threadsIn);
  #isNew = false;

  /**
   * @param {string} person
   * @param {HTMLElement} card
   * @param {object} parts
   * @param {import("../lists/lines.js").Lines} parts.remarks
   * @param {() => import("prosemirror-view").EditorView | undefined} parts.editor the one that is shown
   * @param {(words: string) => void} parts.tell
   * @param {(why: string) => boolean} parts.refuse says why something isn't done
   */
  constructor(person, card, { remarks, editor, tell, refuse }) {
    this.#person = person;
    this.#remarks = remarks;
    this.#editor = editor;
    this.#tell = tell;
    this.#refuse = refuse;
    this.#chips = new Chips(card.querySelector(".comments"), person, { show: (id) => this.#toggle(id), remove: (id) => this.#remove(id) });
    this.#panel = new ThreadPanel(card.querySelector(".thread"), person, {
      say: (words) => this.#say(words),
      turn: () => this.#turn(),
      close: () => this.#leave(),
    });
    this.#style = new ResolvedStyle(`#${card.id}`);
  }

  update() {
    const view = this.#editor();
    if (view === undefined) return this.#panel.update({ kind: "none" });
    const ids = commentsOf(view.state.doc);
    const threads = this.#threadsIn(this.#remarks.lines);
    const shown = shownComment(view.state);
    this.#chips.update(ids, threads, shown);
    this.#style.update(ids.filter((id) => threads.get(id)?.isResolved));
    if (this.#isNew) this.#panel.update({ kind: "new" });
    else if (ids.includes(shown)) this.#panel.update({ kind: "comment", id: shown, thread: threads.get(shown) ?? SILENT });
    else this.#panel.update({ kind: "none" });
  }

  /** Asks for the words of a new comment on what is selected, or shows the one at the caret. Says whether it does either. */
  begin() {
    const { state } = this.#editor();
    const id = state.selection.empty ? commentAt(state) : undefined;
    if (state.selection.empty && id === undefined) return false;
    this.#isNew = id === undefined;
    this.#show(id ?? NONE);
    this.#panel.focus();
    return true;
  }

  /**
   * Shows a comment that was clicked in the text.
   * @param {string} id
   */
  show(id) {
    if (this.#isNew) return;
    this.#show(id);
  }

  /** Shows none. Says whether one was shown. */
  close() {
    const isShown = this.#isNew || this.#shown !== NONE;
    this.#isNew = false;
    if (isShown) this.#show(NONE);
    return isShown;
  }

  /** Begins no new one, as another text is shown. */
  leave() {
    this.#isNew = false;
  }

  #show(id) {
    const { state, dispatch } = this.#editor();
    showComment(id)(state, dispatch);
    this.update();
  }

  get #shown() {
    return shownComment(this.#editor().state);
  }

  #toggle(id) {
    this.#isNew = false;
    const isOn = this.#shown !== id;
    this.#show(isOn ? id : NONE);
    if (!isOn) return;
    this.#editor().dom.querySelector(".shown")?.scrollIntoView({ block: "nearest" });
    this.#panel.focus();
  }

  #leave() {
    const shown = this.#isNew ? NONE : this.#shown;
    this.close();
    // Where the focus was before.
    if (shown === NONE) this.#editor().focus();
    else this.#chips.focus(shown);
  }

  /** @param {string} words */
  #say(words) {
    if (words.trim() === "") return this.#refuse("Write some words first.");
    return this.#isNew ? this.#add(words) : this.#answer(this.#shown, words);
  }

  #add(words) {
    const { state, dispatch } = this.#editor();
    const id = crypto.randomUUID();
    if (state.selection.empty) return this.#refuse("Select some text first.");
    // First what it says, so that nobody sees it without.
    if (!this.#answer(id, words)) return false;
    addComment(id)(state, dispatch);
    this.#isNew = false;
    this.update();
    this.#editor().focus();
    this.#tell("The comment is there.");
    return true;
  }

  #answer(id, words) {
    return this.#remark({ id, kind: "says", words });
  }

  #turn() {
    const id = this.#shown;
    const isResolved = this.#threadsIn(this.#remarks.lines).get(id)?.isResolved ?? false;
    if (this.#remark({ id, kind: isResolved ? "reopens" : "resolves" })) this.#tell(isResolved ? "The comment is open again." : "The comment is resolved.");
  }

  /** Nothing can be said before the remarks that there are have been read. */
  #remark(remark) {
    if (!this.#remarks.isRead) return this.#refuse("The comments aren't read yet.");
    this.#remarks.put(lineOf({ ...remark, author: this.#person }));
    return true;
  }

  #remove(id) {
    const { state, dispatch } = this.#editor();
    removeComment(id)(state, dispatch);
    // Its chip is gone, and the focus with it.
    this.#editor().focus();
  }
}
