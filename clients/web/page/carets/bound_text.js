/**
 * The text of an editor, and the document that it is bound to. While nothing waits to be sent it is just the document's text
 * at one `rev`: then a position in it and a place of the document are the same spot.
 */

import { placeOf, positionOf } from "peritext/positions";

export class BoundText {
  #view;
  #binding;

  /**
   * The document, of the session that there is; nothing between two of them.
   * @type {import("../../../js/src/document.js").Document | undefined}
   */
  document;

  /**
   * @param {import("prosemirror-view").EditorView} view
   * @param {{rev: number, waiting: number}} binding
   */
  constructor(view, binding) {
    this.#view = view;
    this.#binding = binding;
  }

  /** Whether places and positions are the same spots now. In the background what others did isn't read. */
  get isSettled() {
    return this.document !== undefined && this.#binding.waiting === 0 && !document.hidden;
  }

  get rev() {
    return this.#binding.rev;
  }

  /**
   * The places that last of two positions. What others put in beside them stays outside of a selection, and comes after a caret.
   * @param {{head: number, tail: number}} spot
   * @returns {Promise<{head: string, tail: string}>}
   */
  async anchorsOf({ head, tail }) {
    const { doc } = this.#view.state;
    const [first, last] = [Math.min(head, tail), Math.max(head, tail)].map((position) => placeOf(doc, position));
    if (first === last) {
      const anchor = await this.document.anchor(first, "previous", this.rev);
      return { head: anchor, tail: anchor };
    }
    const ends = await Promise.all([this.document.anchor(first, "next", this.rev), this.document.anchor(last, "previous", this.rev)]);
    const [start, end] = head < tail ? ends : ends.reverse();
    return { head: start, tail: end };
  }

  /**
   * The places that last of positions, each by the character before it.
   * @param {number[]} positions
   * @returns {Promise<string[]>}
   */
  anchorsAt(positions) {
    const { doc } = this.#view.state;
    return this.document.anchors(positions.map((position) => placeOf(doc, position)), "previous", this.rev);
  }

  /**
   * The stretches at which a text stands, or nothing if it was looked for in another text than the one that is shown.
   * @param {string} sought
   * @returns {Promise<{from: number, to: number}[] | undefined>}
   */
  async find(sought) {
    const { places, rev } = await this.document.find(sought);
    if (rev !== this.rev || !this.isSettled) return undefined;
    const { doc } = this.#view.state;
    const { length } = [...sought];
    return places.map((place) => ({ from: positionOf(doc, place), to: positionOf(doc, place + length) }));
  }

  /**
   * Where places that last are in the text as it is now, or null for each that isn't in it.
   * @param {string[]} anchors
   * @returns {Promise<(number | null)[]>}
   */
  async positionsOf(anchors) {
    const { doc } = this.#view.state;
    const places = await this.document.places(anchors, this.rev);
    return places.map((place) => (place === null ? null : positionOf(doc, place)));
  }
}
