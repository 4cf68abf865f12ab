/** What the program's texts and steps are in Quill's contents, and where a selection is behind them. */

import { delta } from "../changing.js";
import { stringOf } from "../editing/texts.js";
import { allAttributesOf, attributesOf } from "./formats.js";

/**
 * @typedef {import("../editing/marks.js").Held} Held
 * @typedef {import("../editing/steps.js").Step} Step
 * @typedef {import("../editing/texts.js").Text} Text
 * @typedef {import("./formats.js").Format} Format
 * @typedef {import("./ops.js").Op} Op
 */

/**
 * The contents of a text, with the break that each of them ends with.
 * @param {Text} text
 * @returns {Op[]}
 */
export function contentsOf(text) {
  return [...text.flatMap((run) => putIn(run.text, run.marks)), { insert: "\n" }];
}

/**
 * The steps as Quill counts them.
 * @param {Text} text what they are over
 * @param {readonly Step[]} steps
 * @param {readonly Format[]} formats
 * @returns {Op[]}
 */
export function opsOf(text, steps, formats) {
  const string = stringOf(text);
  let index = 0;
  return delta(string, [...steps]).flatMap((step) => {
    if ("insert" in step) return putIn(step.insert, /** @type {Held} */ (step.attributes));
    const from = index;
    index += "delete" in step ? step.delete : step.retain;
    if ("delete" in step || step.attributes === undefined) return [step];
    const attributes = allAttributesOf(/** @type {Held} */ (step.attributes), formats);
    return partsOf(string.slice(from, index)).map(({ part, isBreak }) => (isBreak ? { retain: part.length } : { retain: part.length, attributes }));
  });
}

/**
 * Where a selection is behind changes: what comes at a caret is after it, and what comes at the ends of a selection outside of
 * it.
 * @param {{index: number, length: number}} selection
 * @param {readonly Op[]} ops
 */
export function movedBy({ index, length }, ops) {
  const end = indexBehind(index + length, ops, false);
  // All that was selected may be gone, and something else be there.
  const start = Math.min(indexBehind(index, ops, length > 0), end);
  return { index: start, length: end - start };
}

/**
 * @param {number} index
 * @param {readonly Op[]} ops
 * @param {boolean} isAfter whether it is after what comes there
 */
function indexBehind(index, ops, isAfter) {
  let [old, now] = [0, 0];
  for (const { insert, delete: gone = 0, retain } of ops) {
    if (old === index && !(isAfter && insert !== undefined)) break;
    const kept = typeof retain === "number" ? retain : 0;
    // What goes around it leaves it where that was.
    if (old + gone > index) return now;
    if (old + kept > index) break;
    old += gone + kept;
    now += kept + (typeof insert === "string" ? insert.length : 0);
  }
  return now + index - old;
}

/**
 * @param {string} text
 * @param {Held} marks
 * @returns {Op[]}
 */
function putIn(text, marks) {
  const attributes = attributesOf(marks);
  const isPlain = Object.keys(attributes).length === 0;
  return partsOf(text).map(({ part, isBreak }) => {
    // Quill has no other break, and would make one of two.
    if (isBreak) return { insert: part.replace(/\r/g, "\n") };
    return isPlain ? { insert: part } : { insert: part, attributes };
  });
}

/**
 * The lines of a text, and the breaks between them, which have no marks in Quill.
 * @param {string} text
 */
function partsOf(text) {
  const parts = text.split(/([\n\r]+)/).map((part, number) => ({ part, isBreak: number % 2 === 1 }));
  return parts.filter(({ part }) => part !== "");
}
