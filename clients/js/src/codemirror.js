/**
 * The text of one CodeMirror 6 editor as the text of one document of peritext. Marks aren't shown, and are left as they are.
 * Each change of a transaction becomes edits, which wait and are sent as those of any editor (`editing/binding.js`).
 */

import { delta } from "./changing.js";
import { Binding } from "./editing/binding.js";
import { deletesOf, insertsOf } from "./editing/edits.js";
import { NONE } from "./editing/marks.js";
import { Teller } from "./editing/teller.js";
import { TEXTS, stringOf } from "./editing/texts.js";
import { HALF, isInside, lengthOf } from "./places.js";

/**
 * @typedef {import("./document.js").Document} Document
 * @typedef {import("./editing/binding.js").Options} Options
 * @typedef {import("./editing/edits.js").Edit} Edit
 * @typedef {import("./editing/steps.js").Step} Step
 * @typedef {import("./editing/texts.js").Text} Text
 * @typedef {import("@codemirror/state").Transaction} Transaction
 * @typedef {import("@codemirror/view").EditorView} EditorView
 */

/**
 * CodeMirror's modules.
 * @typedef {object} Modules
 * @property {typeof import("@codemirror/state")} state
 * @property {typeof import("@codemirror/view")} view
 */

/** @typedef {import("./editing/binding.js").Known<Text>} Known */

/**
 * Reads a document and gives its binding: `doc` and `extension` are for the editor's state.
 * @param {Modules} modules the same that the editor has
 * @param {Document} document
 * @param {Options} options
 */
export async function bind(modules, document, options = {}) {
  const teller = new Teller(document, () => false);
  const { runs, rev } = await teller.all();
  return new CodeMirrorBinding(modules, teller, { base: runs, rev, pending: [] }, options);
}

/** @extends {Binding<Text>} */
class CodeMirrorBinding extends Binding {
  #state;
  #own;
  #known;
  /** @type {EditorView | undefined} */
  #view;

  /**
   * @param {Modules} modules
   * @param {Teller} teller
   * @param {Known} known
   * @param {Options} options
   */
  constructor({ state, view }, teller, known, options) {
    super(TEXTS, teller, options);
    this.#state = state;
    this.#own = state.Annotation.define();
    this.#known = known;
    /** The text as it was read. */
    this.doc = stringOf(known.base);
    /** The extension for the editor's state. */
    this.extension = this.#extension(view.ViewPlugin);
  }

  /**
   * @protected
   * @returns {Known | undefined}
   */
  known() {
    return this.#view && this.#known;
  }

  /**
   * CodeMirror keeps the selection and the undo history with their text.
   * @protected
   * @param {Known} known
   * @param {readonly Step[]} steps over the editor's text
   */
  tell(known, steps) {
    const view = /** @type {EditorView} */ (this.#view);
    const { Transaction } = this.#state;
    this.#known = known;
    const changes = changesOf(view.state.doc.toString(), steps);
    if (changes.length === 0) return;
    const annotations = [this.#own.of(true), Transaction.remote.of(true), Transaction.addToHistory.of(false)];
    const transaction = view.state.update({ changes, annotations, filter: false });
    view.dispatch(transaction);
    if (!view.state.doc.eq(transaction.newDoc)) throw new Error("the editor didn't take what the program has");
  }

  /** @param {typeof import("@codemirror/view").ViewPlugin} ViewPlugin */
  #extension(ViewPlugin) {
    const { EditorState } = this.#state;
    const plugin = ViewPlugin.define((view) => {
      this.#view = view;
      return {
        update: ({ transactions }) => this.#follow(transactions),
        destroy: () => {
          this.#view = undefined;
        },
      };
    });
    // A carriage return is a character as any other, so that all have the same places.
    const separator = EditorState.lineSeparator.of("\n");
    return [separator, EditorState.transactionFilter.of((transaction) => (isHeld(transaction) ? transaction : [])), plugin];
  }

  /** @param {readonly Transaction[]} transactions those that were made in the editor */
  #follow(transactions) {
    for (const transaction of transactions) {
      if (transaction.annotation(this.#own) === undefined) this.#known = this.followed(this.#known, editsOf(transaction));
    }
    this.begin();
  }
}

/**
 * What a transaction amounts to.
 * @param {Transaction} transaction
 */
function editsOf({ changes, startState, newDoc }) {
  const [before, after] = [startState.doc.toString(), newDoc.toString()];
  /** @type {Edit[]} */
  const edits = [];
  changes.iterChanges((from, to, start, end) => {
    // Where halves of two characters came together, all of them were replaced.
    const [first, last] = [isInside(before, from) ? 1 : 0, isInside(before, to) ? 1 : 0];
    const at = lengthOf(after.slice(0, start - first));
    edits.push(...deletesOf(at, lengthOf(before.slice(from - first, to + last))));
    edits.push(...insertsOf(at, [{ text: after.slice(start - first, end + last), marks: NONE }]));
  });
  return edits;
}

/**
 * The program's steps as changes of the editor's text, each over what was there before all of them.
 * @param {string} text
 * @param {readonly Step[]} steps
 */
function changesOf(text, steps) {
  /** @type {{from: number, to?: number, insert?: string}[]} */
  const changes = [];
  let index = 0;
  for (const step of delta(text, [...steps])) {
    if ("insert" in step) changes.push({ from: index, insert: step.insert });
    else if ("delete" in step) changes.push({ from: index, to: (index += step.delete) });
    else index += step.retain;
  }
  return changes;
}

/**
 * Whether what a transaction leaves can be held: whole characters alone.
 * @param {Transaction} transaction
 */
function isHeld({ docChanged, newDoc }) {
  return !docChanged || !HALF.test(newDoc.toString());
}
