/**
 * One ProseMirror document of plain paragraphs as one document of peritext. The break between two paragraphs is the
 * character "\n" of the text; the marks are `strong`, `em`, `link` with an `href`, and `comment` with an `id`. Each step of
 * a transaction becomes edits, which wait and are sent as those of any editor (`editing/binding.js`).
 */

import { Binding } from "./editing/binding.js";
import { Teller } from "./editing/teller.js";
import { documentOf, isHeld, runsOf } from "./paragraphs/characters.js";
import { editsOf } from "./paragraphs/local.js";
import { runsBetween } from "./paragraphs/positions.js";
import { behind, behindSteps, show } from "./paragraphs/shown.js";

/**
 * @typedef {import("./document.js").Document} Document
 * @typedef {import("./editing/binding.js").Options} Options
 * @typedef {import("./editing/steps.js").Step} Step
 * @typedef {import("./paragraphs/local.js").Modules} Modules
 * @typedef {import("./paragraphs/characters.js").Node} Node
 * @typedef {import("prosemirror-state").Transaction} Transaction
 * @typedef {import("prosemirror-view").EditorView} EditorView
 */

/** @typedef {import("./editing/binding.js").Known<Node>} Known */

/**
 * Reads a document and gives its binding: `doc` and `plugin` are for the editor's state.
 * @param {Modules} modules prosemirror's modules, the same that the editor has
 * @param {import("prosemirror-model").Schema} schema
 * @param {Document} document
 * @param {Options} options
 */
export async function bind(modules, schema, document, options = {}) {
  const teller = new Teller(document, (kind) => kind in schema.marks);
  const { runs, rev } = await teller.all();
  return new ProseMirrorBinding(modules, teller, documentOf(schema, runs), rev, options);
}

/** @extends {Binding<Node>} */
class ProseMirrorBinding extends Binding {
  #modules;
  #key;
  /** @type {EditorView | undefined} */
  #view;

  /**
   * @param {Modules} modules
   * @param {Teller} teller
   * @param {Node} doc
   * @param {number} rev
   * @param {Options} options
   */
  constructor(modules, teller, doc, rev, options) {
    super(textsOf(modules), teller, options);
    this.#modules = modules;
    this.#key = new modules.state.PluginKey("peritext");
    /** The document as it was read. */
    this.doc = doc;
    /** The plugin for the editor's state. */
    this.plugin = this.#plugin({ base: doc, rev, pending: [] });
  }

  /**
   * It is kept in the editor's state.
   * @protected
   * @returns {Known | undefined}
   */
  known() {
    return this.#view && this.#key.getState(this.#view.state);
  }

  /**
   * Only what others did is changed, so the caret and the undo history stay with their text.
   * @protected
   * @param {Known} known
   * @param {readonly Step[]} steps over the editor's document
   */
  tell(known, steps) {
    const view = /** @type {EditorView} */ (this.#view);
    const { tr, selection, storedMarks } = view.state;
    show(this.#modules, tr, steps);
    if (tr.docChanged) this.#keepCaret(tr, selection).setStoredMarks(storedMarks).setMeta("addToHistory", false);
    view.dispatch(tr.setMeta(this.#key, known));
    if (this.known() !== known) throw new Error("the editor didn't take what the program has");
  }

  /** @param {Known} start */
  #plugin(start) {
    const { Plugin } = this.#modules.state;
    return new Plugin({
      key: this.#key,
      state: {
        init: () => start,
        apply: (transaction, known) => transaction.getMeta(this.#key) ?? this.followed(known, this.#editsOf(transaction)),
      },
      filterTransaction: (transaction) => this.#isTaken(transaction),
      view: (view) => {
        this.#view = view;
        return {
          update: () => this.begin(),
          destroy: () => {
            this.#view = undefined;
          },
        };
      },
    });
  }

  /**
   * Whether what a transaction leaves can be held.
   * @param {Transaction} transaction
   */
  #isTaken(transaction) {
    if (!transaction.docChanged || transaction.getMeta(this.#key)) return true;
    return docsBehind(transaction).every((doc, index) => isHeld(doc, transaction.docs[index]));
  }

  /**
   * What a local transaction amounts to.
   * @param {Transaction} transaction
   */
  #editsOf(transaction) {
    const { steps, docs } = transaction;
    const after = docsBehind(transaction);
    return steps.flatMap((step, index) => editsOf(this.#modules, step, docs[index], after[index]));
  }

  /**
   * What others put in at the caret comes behind it, and at the ends of a selection outside of it.
   * @param {Transaction} transaction
   * @param {import("prosemirror-state").Selection} selection
   */
  #keepCaret(transaction, selection) {
    const { TextSelection } = this.#modules.state;
    if (!(selection instanceof TextSelection)) return transaction;
    const { from, to, anchor, empty } = selection;
    const end = transaction.mapping.map(to, -1);
    // All that was selected may be gone, and something else be there.
    const start = Math.min(transaction.mapping.map(from, empty ? -1 : 1), end);
    const [tail, head] = anchor === from ? [start, end] : [end, start];
    return transaction.setSelection(TextSelection.create(transaction.doc, tail, head));
  }
}

/**
 * The documents behind each step of a transaction.
 * @param {Transaction} transaction
 */
function docsBehind({ docs, doc }) {
  return [...docs.slice(1), doc];
}

/**
 * An editor has most paragraphs in many documents, and so has a binding that keeps its documents.
 * @param {Modules} modules
 * @returns {import("./editing/binding.js").Texts<Node>}
 */
function textsOf(modules) {
  return {
    runsOf,
    runsBetween,
    behindSteps: (doc, steps) => behindSteps(modules, doc, steps),
    behindEdits: (doc, pending) => behind(modules, doc, pending),
  };
}
