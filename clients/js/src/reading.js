/** A text that was read. */

import { givenOf } from "./aborting.js";
import { HALF, toIndex, toPlace } from "./places.js";
import { Stale } from "./refusals.js";

/**
 * @typedef {import("./aborting.js").Abortable} Abortable
 * @typedef {import("./action.js").Edit} Edit
 * @typedef {import("./document.js").Side} Side
 */

/**
 * A text and the `rev` that it has. Its edits count as JavaScript's strings do, are made in just this text or are
 * `Stale`, and answer the next reading; so are places that last. An index within a pair of surrogates is a `RangeError`.
 */
export class Reading {
  #parted;

  /**
   * @param {import("./document.js").Document} document
   * @param {string} text
   * @param {number} rev
   * @param {number} parted how many transports of the session had ended before the text was asked for
   */
  constructor(document, text, rev, parted = document.session.parted) {
    this.document = document;
    this.text = text;
    this.rev = rev;
    this.#parted = parted;
  }

  /**
   * Puts characters in at an index.
   * @param {number} index
   * @param {string} text
   * @param {Abortable} [options]
   */
  async insert(index, text, options) {
    const rev = await this.document.insert(toPlace(this.text, index), text, this.#given(options));
    return this.#next(this.text.slice(0, index) + text + this.text.slice(index), rev);
  }

  /**
   * Takes away the characters from an index up to another.
   * @param {number} from
   * @param {number} to
   * @param {Abortable} [options]
   */
  async delete(from, to, options) {
    const at = toPlace(this.text, from);
    const rev = await this.document.delete(at, toPlace(this.text, to) - at, this.#given(options));
    return this.#next(this.text.slice(0, from) + this.text.slice(to), rev);
  }

  /**
   * Marks the characters from an index up to another.
   * @param {number} from
   * @param {number} to
   * @param {import("./marks.js").Mark} mark
   * @param {Abortable} [options]
   */
  async mark(from, to, mark, options) {
    const rev = await this.document.mark(toPlace(this.text, from), toPlace(this.text, to), mark, this.#given(options));
    return this.#next(this.text, rev);
  }

  /**
   * Takes a mark away from the characters from an index up to another.
   * @param {number} from
   * @param {number} to
   * @param {import("./marks.js").Mark} mark
   * @param {Abortable} [options]
   */
  async unmark(from, to, mark, options) {
    const rev = await this.document.unmark(toPlace(this.text, from), toPlace(this.text, to), mark, this.#given(options));
    return this.#next(this.text, rev);
  }

  /**
   * Makes edits at once, as a document's `action` does. Each is at the indexes of the text that those before it leave, and a
   * `count` is one of UTF-16 units.
   * @param {readonly Edit[]} edits
   * @param {Abortable & {parted?: boolean}} [options]
   */
  async action(edits, options) {
    let { text } = this;
    const placed = edits.map((edit) => {
      const before = text;
      text = behind(before, edit);
      return inPlaces(before, edit);
    });
    return this.#next(text, await this.document.action(placed, this.#given(options)));
  }

  /**
   * A name for the place at an index, which lasts, or `Stale` if the document has moved on from this text.
   * @param {number} index
   * @param {Side | (Abortable & {side?: Side})} [side]
   * @param {Abortable} [options]
   */
  async anchor(index, side, options) {
    return this.document.anchor(toPlace(this.text, index), this.#given(givenOf({ side }, options)));
  }

  /**
   * The index of a place that lasts in this text, or null if it is beside a character that the file doesn't have; `Stale` if
   * the document has moved on.
   * @param {string} anchor
   * @param {Abortable} [options]
   */
  async index(anchor, options) {
    const place = await this.document.place(anchor, this.#given(options));
    return place === null ? null : toIndex(this.text, place);
  }

  /**
   * All indexes from one on at which a text stands, overlapping ones too. It is looked for here, and nobody is asked.
   * @param {string} text
   * @param {number} from
   */
  find(text, from = 0) {
    if (text === "") throw new RangeError("an empty text stands nowhere");
    /** @type {number[]} */
    const found = [];
    // Half a character is none.
    if (HALF.test(text)) return found;
    for (let at = this.text.indexOf(text, from); at >= 0; at = this.text.indexOf(text, at + 1)) found.push(at);
    return found;
  }

  /**
   * What a call of the document is given. Over the next transport the number may name another text, whoever has read it there.
   * @template {object} T
   * @param {T} [options]
   */
  #given(options) {
    if (this.#parted !== this.document.session.parted) throw new Stale(6, "stale");
    return { .../** @type {T} */ (options), rev: this.rev };
  }

  /**
   * @param {string} text
   * @param {number} rev
   */
  #next(text, rev) {
    return new Reading(this.document, text, rev, this.#parted);
  }
}

/**
 * The text behind an edit, which counts as strings do.
 * @param {string} text
 * @param {Edit} edit
 */
function behind(text, edit) {
  if (edit.op === "insert") return text.slice(0, edit.at) + edit.text + text.slice(edit.at);
  return edit.op === "delete" ? text.slice(0, edit.at) + text.slice(edit.at + edit.count) : text;
}

/**
 * The edit of a text that counts as strings do, as the program counts.
 * @param {string} text
 * @param {Edit} edit
 * @returns {Edit}
 */
function inPlaces(text, edit) {
  if (edit.op === "insert") return { ...edit, at: toPlace(text, edit.at) };
  if (edit.op !== "delete") return { ...edit, from: toPlace(text, edit.from), to: toPlace(text, edit.to) };
  const at = toPlace(text, edit.at);
  return { ...edit, at, count: toPlace(text, edit.at + edit.count) - at };
}
