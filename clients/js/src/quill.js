/**
 * The contents of one Quill editor (2.x) as one document of peritext. The break at the end of the contents is the editor's own
 * and no part of the document; marks are the formats of `deltas/formats.js`. Each change becomes edits, which wait and are sent
 * as those of any editor (`editing/binding.js`).
 */

import { FORMATS, knowing } from "./deltas/formats.js";
import { mendingOf, withoutCuts } from "./deltas/held.js";
import { editsOf } from "./deltas/local.js";
import { contentsOf, movedBy, opsOf } from "./deltas/shown.js";
import { Binding } from "./editing/binding.js";
import { isPlain } from "./editing/steps.js";
import { Teller } from "./editing/teller.js";
import { TEXTS, behindEdits, behindSteps, stringOf } from "./editing/texts.js";

/**
 * @typedef {import("./deltas/formats.js").Format} Format
 * @typedef {import("./deltas/ops.js").Op} Op
 * @typedef {import("./document.js").Document} Document
 * @typedef {import("./editing/steps.js").Step} Step
 * @typedef {import("./editing/texts.js").Text} Text
 */

/** @typedef {import("./editing/binding.js").Known<Text>} Known */

/**
 * What a binding asks of an editor.
 * @typedef {object} Quill
 * @property {(name: any, act: (...told: any[]) => void) => unknown} on
 * @property {(name: any, act: (...told: any[]) => void) => unknown} off
 * @property {(source?: any) => void} update
 * @property {() => number} getLength
 * @property {(index?: any, length?: any) => {ops: Op[]}} getContents
 * @property {(delta: any, source?: any) => unknown} setContents
 * @property {(delta: any, source?: any) => unknown} updateContents
 * @property {(focus?: any) => {index: number, length: number} | null} getSelection
 * @property {(index: any, length?: any, source?: any) => void} setSelection
 */

/**
 * `formats` are those that the editor has: marks of any other kind are left alone.
 * @typedef {import("./editing/binding.js").Options & {formats?: readonly Format[]}} Options
 */

/**
 * Reads a document, shows it in an editor whatever was there before, and gives its binding.
 * @param {Quill} quill
 * @param {Document} document
 * @param {Options} options
 */
export async function bind(quill, document, { formats = FORMATS, ...options } = {}) {
  const teller = new Teller(document, knowing(formats));
  const { runs, rev } = await teller.all();
  return new QuillBinding(quill, formats, teller, { base: runs, rev, pending: [] }, options);
}

/** @extends {Binding<Text>} */
class QuillBinding extends Binding {
  #quill;
  #formats;
  /** @type {Known | undefined} nothing once it is closed */
  #known;
  /** What the editor shows, without its last break. */
  #shown;
  /** Whether the next change is this binding's own. */
  #isOwn = false;

  /**
   * @param {Quill} quill
   * @param {readonly Format[]} formats
   * @param {Teller} teller
   * @param {Known} known
   * @param {import("./editing/binding.js").Options} options
   */
  constructor(quill, formats, teller, known, options) {
    super(TEXTS, teller, options);
    this.#quill = quill;
    this.#formats = formats;
    this.#known = known;
    this.#shown = known.base;
    // What was typed before goes.
    quill.update();
    // It comes for silent changes too, and before others are told.
    quill.on("editor-change", this.#hear);
    this.#showAll();
  }

  /** Leaves the editor as it is. What waits isn't sent any more. */
  close() {
    this.#quill.off("editor-change", this.#hear);
    this.#known = undefined;
  }

  /**
   * What was typed and Quill hasn't looked at is told first.
   * @protected
   */
  known() {
    if (this.#known !== undefined) this.#quill.update();
    return this.#known;
  }

  /**
   * @protected
   * @param {Known} known
   * @param {readonly Step[]} steps
   */
  tell(known, steps) {
    this.#known = known;
    if (steps.every(isPlain)) return;
    const selection = this.#quill.getSelection();
    const ops = opsOf(this.#shown, steps, this.#formats);
    this.#shown = behindSteps(this.#shown, steps);
    this.#show(() => this.#quill.updateContents({ ops }, "api"));
    if (this.#quill.getLength() !== stringOf(this.#shown).length + 1) this.#showAll();
    // What somebody's code did because of it may have moved the selection further.
    if (selection === null || this.#known !== known) return;
    const { index, length } = movedBy(selection, ops);
    this.#quill.setSelection(index, length, "silent");
  }

  /** @param {() => void} act changes the contents */
  #show(act) {
    this.#isOwn = true;
    act();
    // There may have been nothing to change.
    this.#isOwn = false;
  }

  #showAll() {
    this.#show(() => this.#quill.setContents({ ops: contentsOf(this.#shown) }, "api"));
  }

  /**
   * @param {string} name
   * @param {{ops: Op[]}} delta
   */
  #hear = (name, delta) => {
    if (name !== "text-change" || this.#known === undefined) return;
    // What others change because of an own change comes after that.
    if (this.#isOwn) this.#isOwn = false;
    else this.#follow(this.#known, delta.ops);
  };

  /**
   * Somebody changed the contents here. What can't be held is taken out again.
   * @param {Known} known
   * @param {readonly Op[]} changed
   */
  #follow(known, changed) {
    const ops = withoutCuts(this.#shown, changed, (index, length) => this.#quill.getContents(index, length).ops);
    const edits = editsOf(this.#shown, ops, this.#formats);
    this.#known = this.followed(known, edits);
    this.#shown = behindEdits(this.#shown, edits.map((edit) => ({ edit })));
    const mending = mendingOf(ops, this.#formats);
    if (mending.length > 0) this.#show(() => this.#quill.updateContents({ ops: mending }, "api"));
    this.begin();
  }
}
