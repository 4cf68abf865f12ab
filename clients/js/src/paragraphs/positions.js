/** Positions of ProseMirror in a document of plain paragraphs, and places of the program. A break between two paragraphs is one place wide. */

import { indexAfter, isInside, lengthOf } from "../places.js";
import { changedIn, runsOf } from "./characters.js";

/** @typedef {import("prosemirror-model").Node} Node */

/**
 * Where each paragraph of a document begins: before its text, as a place and as a position. The last number of each list is
 * where a further one would.
 * @typedef {{places: number[], positions: number[]}} Starts
 */

/**
 * Of documents and of paragraphs. They never change, and an editor has most paragraphs in many documents.
 * @type {WeakMap<Node, Starts>}
 */
const STARTS = new WeakMap();
/** @type {WeakMap<Node, number>} */
const LENGTHS = new WeakMap();

/**
 * Notes where the paragraphs of a document are, by those of one before, most of which it shares.
 * @param {Node} doc
 * @param {Node} before
 */
export function note(doc, before) {
  if (!STARTS.has(doc)) STARTS.set(doc, foundStarts(doc, before));
}

/**
 * How many characters a document has.
 * @param {Node} doc
 */
export function sizeOf(doc) {
  return startsIn(doc).places[doc.childCount] - 1;
}

/**
 * The place of a position; one between two paragraphs counts as the end of the first, one inside of a character as its start.
 * @param {Node} doc
 * @param {number} position
 */
export function placeOf(doc, position) {
  const { places, positions } = startsIn(doc);
  // What is before a paragraph's first position is behind the paragraph before.
  const index = Math.min(lastUpTo(positions, position), doc.childCount - 1);
  return places[index] + placeIn(doc.child(index), position - positions[index]);
}

/**
 * The position of a place.
 * @param {Node} doc
 * @param {number} place
 */
export function positionOf(doc, place) {
  const { places, positions } = startsIn(doc);
  const index = lastUpTo(places, place);
  return positions[index] + offsetIn(doc.child(index), place - places[index]);
}

/**
 * The texts between two places, each with its marks.
 * @param {Node} doc
 * @param {number} from
 * @param {number} to
 */
export function runsBetween(doc, from, to) {
  return from < to ? runsOf(doc.content.cut(positionOf(doc, from), positionOf(doc, to))) : [];
}

/**
 * @param {Node} doc
 * @returns {Starts}
 */
function startsIn(doc) {
  let starts = STARTS.get(doc);
  if (starts === undefined) STARTS.set(doc, (starts = foundStarts(doc)));
  return starts;
}

/**
 * @param {Node} doc
 * @param {Node} [before]
 * @returns {Starts}
 */
function foundStarts(doc, before) {
  const known = before && STARTS.get(before);
  const { first, end, shift } = changedIn(doc, known && before);
  const places = known?.places.slice(0, first + 1) ?? [0];
  const positions = known?.positions.slice(0, first + 1) ?? [1];
  for (let index = first; index < end; index += 1) {
    const paragraph = doc.child(index);
    places.push(places[index] + lengthIn(paragraph) + 1);
    positions.push(positions[index] + paragraph.nodeSize);
  }
  if (known !== undefined) addRest(places, known.places, end - shift);
  if (known !== undefined) addRest(positions, known.positions, end - shift);
  return { places, positions };
}

/**
 * Adds the numbers behind one of another list, as far behind the last one here as they are behind that one.
 * @param {number[]} starts
 * @param {number[]} known
 * @param {number} from
 */
function addRest(starts, known, from) {
  const further = starts[starts.length - 1] - known[from];
  for (let index = from + 1; index < known.length; index += 1) starts.push(known[index] + further);
}

/**
 * The index of the last number of a rising list that isn't above a limit, or 0.
 * @param {number[]} rising
 * @param {number} limit
 */
function lastUpTo(rising, limit) {
  let first = 0;
  let end = rising.length;
  while (end - first > 1) {
    const middle = (first + end) >> 1;
    if (rising[middle] <= limit) first = middle;
    else end = middle;
  }
  return first;
}

/**
 * How many characters a paragraph has.
 * @param {Node} paragraph
 * @returns {number}
 */
function lengthIn(paragraph) {
  let length = LENGTHS.get(paragraph);
  if (length === undefined) LENGTHS.set(paragraph, (length = lengthOf(paragraph.textContent)));
  return length;
}

/**
 * How many characters stand before an offset in a paragraph.
 * @param {Node} paragraph
 * @param {number} offset
 */
function placeIn(paragraph, offset) {
  const length = lengthIn(paragraph);
  if (offset >= paragraph.content.size) return length;
  // Without surrogates each character is one unit wide.
  return length === paragraph.content.size ? Math.max(offset, 0) : lengthOf(headOf(paragraph.textContent, offset));
}

/**
 * The whole characters in the first units of a text.
 * @param {string} text
 * @param {number} units
 */
function headOf(text, units) {
  return text.slice(0, Math.max(isInside(text, units) ? units - 1 : units, 0));
}

/**
 * The offset in a paragraph behind its first characters.
 * @param {Node} paragraph
 * @param {number} place
 */
function offsetIn(paragraph, place) {
  return lengthIn(paragraph) === paragraph.content.size ? place : indexAfter(paragraph.textContent, place).index;
}
