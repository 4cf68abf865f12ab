/**
 * A document of lines that no editor shows. It is bound as an editor's text is, so what is written while there is no daemon
 * waits here too, and is made once.
 *
 * A line is put in with a break before it and one after it, and no break is ever taken away. So whatever others write beside it
 * at the same time, it stays a line of its own, and what others wrote into a line that is replaced becomes no part of the next
 * one.
 */

import * as model from "prosemirror-model";
import * as state from "prosemirror-state";
import * as transform from "prosemirror-transform";
import { bind } from "peritext/prosemirror";

import { remembered } from "../remembered.js";

const schema = new model.Schema({ nodes: { doc: { content: "paragraph+" }, paragraph: { content: "text*" }, text: {} } });
const { paragraph } = schema.nodes;

const NONE = [];

/** @typedef {import("../../../js/src/document.js").Document} Document */

export class Lines {
  #onChange;
  #onError;
  #linesOf = remembered((doc) => doc.content.content.map(({ textContent }) => textContent));
  #binding;
  /** @type {{update: () => void} | undefined} */
  #bound;
  /** What the binding takes for an editor's. @type {import("prosemirror-state").EditorState | undefined} */
  state;

  /**
   * @param {number} number the document's
   * @param {{onChange: () => void, onError: (error: Error) => void}} listeners
   */
  constructor(number, { onChange, onError }) {
    this.number = number;
    this.#onChange = onChange;
    this.#onError = onError;
  }

  /** Whether they have been read: before that nothing can be written. */
  get isRead() {
    return this.state !== undefined;
  }

  /**
   * The lines, with what waits to be sent. They are the same list until one changes.
   * @returns {readonly string[]}
   */
  get lines() {
    return this.state === undefined ? NONE : this.#linesOf(this.state.doc);
  }

  get waiting() {
    return this.#binding?.waiting ?? 0;
  }

  get rev() {
    return this.#binding.rev;
  }

  /**
   * Reads them over a session, or goes on over another one.
   * @param {Document} [document] nothing between two sessions
   */
  async over(document) {
    if (document === undefined) return;
    if (this.#binding === undefined) await this.#open(document);
    else await this.#binding.resume(document);
  }

  async pull() {
    await this.#binding.pull();
  }

  async settled() {
    await this.#binding.settled();
  }

  /**
   * Puts a line in the place of those that have gone out of date, the last one of them, or at the end if there are none.
   * @param {string} line
   * @param {(line: string) => boolean} isOld
   */
  put(line, isOld = () => false) {
    const { doc, tr } = this.state;
    const spots = [];
    doc.forEach((node, position) => {
      if (isOld(node.textContent)) spots.push({ from: position + 1, to: position + 1 + node.content.size });
    });
    const end = doc.content.size - 1;
    const { from, to } = spots.pop() ?? { from: end, to: end };
    tr.replace(from, to, sliceOf(line));
    for (const old of spots.reverse()) tr.delete(old.from, old.to);
    this.dispatch(tr);
  }

  /** What the binding calls, as it does an editor's. */
  dispatch(transaction) {
    this.state = this.state.apply(transaction);
    this.#bound.update();
    this.#onChange();
  }

  async #open(document) {
    const binding = await bind({ model, state, transform }, schema, document, { onError: this.#onError });
    this.#binding = binding;
    this.state = state.EditorState.create({ doc: binding.doc, plugins: [binding.plugin] });
    this.#bound = binding.plugin.spec.view(this);
    this.#onChange();
  }
}

/** A line between two breaks. */
function sliceOf(line) {
  const lines = ["", line, ""].map((text) => paragraph.create(null, text === "" ? [] : [schema.text(text)]));
  return new model.Slice(model.Fragment.from(lines), 1, 1);
}
