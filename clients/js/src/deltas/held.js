/** What of a change of Quill's contents can't be held. */

import { isInside } from "../places.js";
import { stringOf } from "../editing/texts.js";
import { mendedBy } from "./formats.js";
import { isPlain, partsOf, putInBy, widthOf } from "./ops.js";

/**
 * @typedef {import("../editing/texts.js").Text} Text
 * @typedef {import("./formats.js").Attributes} Attributes
 * @typedef {import("./formats.js").Format} Format
 * @typedef {import("./ops.js").Op} Op
 */

/**
 * What makes contents that were changed so into contents that can be held. Nothing if they can be.
 * @param {readonly Op[]} ops
 * @param {readonly Format[]} formats
 * @returns {Op[]}
 */
export function mendingOf(ops, formats) {
  const mending = ops.flatMap((op) => mendingAt(op, formats)).filter(({ retain }) => retain !== 0);
  return mending.every(isPlain) ? [] : mending;
}

/**
 * @param {Op} op
 * @param {readonly Format[]} formats
 * @returns {Op[]}
 */
function mendingAt(op, formats) {
  const { insert, retain, attributes = {} } = op;
  if (op.delete !== undefined) return [];
  const mended = mendedBy(attributes, formats);
  if (typeof retain === "number") return [kept(retain, mended)];
  if (typeof insert !== "string") return [{ delete: 1 }];
  return partsOf(insert).map(({ part, isHalf }) => (isHalf ? { delete: part.length } : kept(part.length, mended)));
}

/**
 * @param {number} retain
 * @param {Attributes} [attributes]
 */
function kept(retain, attributes) {
  return attributes === undefined ? { retain } : { retain, attributes };
}

/**
 * A change that cuts a character in two, as one stretch that is replaced; any other one as it is.
 * @param {Text} text what was shown before
 * @param {readonly Op[]} ops
 * @param {(index: number, length: number) => readonly Op[]} contentsAt what the contents are now from an index on
 * @returns {readonly Op[]}
 */
export function withoutCuts(text, ops, contentsAt) {
  const string = stringOf(text);
  const { ends, first, last, growth } = extentOf(ops);
  if (first > last) return [];
  if (!ends.some((index) => isInside(string, index))) return ops;
  const start = isInside(string, first) ? first - 1 : first;
  const end = isInside(string, last) ? last + 1 : last;
  return [{ retain: start }, { delete: end - start }, ...contentsAt(start, end - start + growth)];
}

/**
 * Where the steps of a change end, where the first one is that changes something and where the last one ends, all in the
 * contents before; and how much longer these came to be.
 * @param {readonly Op[]} ops
 */
function extentOf(ops) {
  /** @type {number[]} */
  const ends = [];
  const extent = { ends, first: Infinity, last: -1, growth: 0 };
  let index = 0;
  for (const op of ops) {
    if (!isPlain(op)) extent.first = Math.min(extent.first, index);
    index += widthOf(op);
    ends.push(index);
    if (!isPlain(op)) extent.last = index;
    extent.growth += putInBy(op) - (op.delete ?? 0);
  }
  return extent;
}
