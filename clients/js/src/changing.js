/** What changed in a document: the steps that make of the text of then the one of now. */

import { indexAfter, toIndex } from "./places.js";

/**
 * All marks of a character: those that hold, or each kind, with null where there is none.
 * @typedef {{strong?: true | null, em?: true | null, link?: string | null, comments?: string[] | null}} Marks
 * @typedef {import("./marks.js").Span} Span
 */

/**
 * So many characters (Unicode scalar values) stay, or go, or a text comes. Characters that stay with attributes have just
 * these marks now, else those that they had; a text without any has no marks.
 * @typedef {{retain: number, attributes?: Marks}} Retain
 * @typedef {{delete: number}} Delete
 * @typedef {{insert: string, attributes?: Marks}} Insert
 * @typedef {Retain | Delete | Insert} Step
 */

/**
 * Steps over a text, from its start on, and the `rev` of the text that they make. What stands behind the last one stays as
 * it is.
 * @typedef {{steps: Step[], rev: number}} Changes
 */

/**
 * The spans that steps make of others. A `RangeError` if the steps are over a longer text.
 * @param {Span[]} spans
 * @param {Step[]} steps
 * @returns {Span[]}
 */
export function applied(spans, steps) {
  // The first of them is the last one of the list.
  const left = [...spans].reverse();
  const made = steps.flatMap((step) => madeBy(step, left));
  return joined([...made, ...left.reverse()]);
}

/**
 * The same steps as editors count them, in UTF-16 units, over the text of then: a Delta for Quill's `updateContents`. A
 * `RangeError` if the steps are over a longer text.
 * @param {string} text
 * @param {Step[]} steps
 * @returns {Step[]}
 */
export function delta(text, steps) {
  let at = 0;
  return steps.map((step) => {
    if ("insert" in step) return step;
    const units = toIndex(text.slice(at), "delete" in step ? step.delete : step.retain);
    at += units;
    return "delete" in step ? { delete: units } : { ...step, retain: units };
  });
}

/**
 * Whether steps make of some spans just these ones.
 * @param {Span[]} spans
 * @param {Step[]} steps
 * @param {Span[]} wanted
 */
export function leadTo(spans, steps, wanted) {
  try {
    const made = applied(spans, steps);
    return made.length === wanted.length && made.every((span, index) => isSame(span, wanted[index]));
  } catch (error) {
    if (error instanceof RangeError) return false;
    throw error;
  }
}

/**
 * The spans that a step makes of those that are left.
 * @param {Step} step
 * @param {Span[]} left
 */
function madeBy(step, left) {
  if ("insert" in step) return [marked(step.insert, step.attributes)];
  const spans = taken(left, "delete" in step ? step.delete : step.retain);
  if ("delete" in step) return [];
  return step.attributes === undefined ? spans : spans.map(({ text }) => marked(text, step.attributes));
}

/**
 * Takes so many characters from those that are left.
 * @param {Span[]} left
 * @param {number} count
 */
function taken(left, count) {
  const spans = [];
  for (let due = count; due > 0; ) {
    const span = left.pop();
    if (span === undefined) throw new RangeError("the steps are over a longer text");
    const { text } = span;
    const found = indexAfter(text, due);
    if (found.index < text.length) left.push({ ...span, text: text.slice(found.index) });
    spans.push({ ...span, text: text.slice(0, found.index) });
    due = found.left;
  }
  return spans;
}

/**
 * A text with the marks that hold.
 * @param {string} text
 * @param {Marks} marks
 * @returns {Span}
 */
function marked(text, { strong, em, link, comments } = {}) {
  return { ...(comments && { comments }), ...(em && { em }), ...(link && { link }), ...(strong && { strong }), text };
}

/**
 * The same text, in spans that are as long as they can be.
 * @param {Span[]} spans
 */
function joined(spans) {
  /** @type {Span[]} */
  const found = [];
  for (const span of spans) {
    const last = found[found.length - 1];
    if (last !== undefined && marksOf(last) === marksOf(span)) found[found.length - 1] = { ...last, text: last.text + span.text };
    else found.push(span);
  }
  return found;
}

/**
 * @param {Span} span
 * @param {Span} other
 */
function isSame(span, other) {
  return span.text === other.text && marksOf(span) === marksOf(other);
}

/** @param {Span} span */
function marksOf({ strong, em, link, comments }) {
  return JSON.stringify([strong, em, link, comments]);
}
