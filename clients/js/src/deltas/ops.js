/** The steps of Quill's Deltas. */

import { HALF } from "../places.js";

/**
 * A step over contents, which counts UTF-16 units; an embed counts as one.
 * @typedef {{insert?: unknown, delete?: number, retain?: unknown, attributes?: import("./formats.js").Attributes}} Op
 */

/**
 * How many units of the contents before it a step is over.
 * @param {Op} op
 * @returns {number}
 */
export function widthOf(op) {
  if (op.insert !== undefined) return 0;
  return op.delete ?? (typeof op.retain === "number" ? op.retain : 1);
}

/**
 * How many units a step puts in.
 * @param {Op} op
 */
export function putInBy({ insert }) {
  if (insert === undefined) return 0;
  return typeof insert === "string" ? insert.length : 1;
}

/**
 * Whether a step leaves all as it is.
 * @param {Op} op
 */
export function isPlain({ retain, attributes }) {
  return retain !== undefined && attributes === undefined;
}

/**
 * A text without halves of characters.
 * @param {string} text
 */
export function wellFormed(text) {
  return partsOf(text).filter(({ isHalf }) => !isHalf).map(({ part }) => part).join("");
}

/**
 * A text in parts: halves of characters, and what is between them.
 * @param {string} text
 */
export function partsOf(text) {
  return text.split(HALVES).map((part, number) => ({ part, isHalf: number % 2 === 1 }));
}

const HALVES = new RegExp(`(${HALF.source})`, "u");
