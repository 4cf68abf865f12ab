/** Texts as lists of runs, for editors whose own documents aren't made to be kept. */

import { indexAfter, lengthOf } from "../places.js";
import { changed, isSame } from "./marks.js";

/**
 * @typedef {import("./edits.js").Edit} Edit
 * @typedef {import("./edits.js").Run} Run
 * @typedef {import("./steps.js").Step} Step
 */

/** @typedef {readonly Run[]} Text */

/**
 * All characters of a text, without marks.
 * @param {Text} text
 */
export function stringOf(text) {
  return text.map((run) => run.text).join("");
}

/**
 * What stands between two places.
 * @param {Text} text
 * @param {number} from
 * @param {number} to
 */
export function runsBetween(text, from, to) {
  const left = leftOf(text);
  take(left, from);
  return take(left, to - from);
}

/**
 * The text behind steps.
 * @param {Text} text
 * @param {readonly Step[]} steps
 * @returns {Text}
 */
export function behindSteps(text, steps) {
  const left = leftOf(text);
  const made = steps.flatMap((step) => {
    if ("insert" in step) return [{ text: step.insert, marks: step.attributes }];
    if ("delete" in step) {
      take(left, step.delete);
      return [];
    }
    const { retain, attributes } = step;
    const runs = take(left, retain);
    return attributes === undefined ? runs : runs.map((run) => ({ text: run.text, marks: attributes }));
  });
  return joined([...made, ...left.reverse()]);
}

/**
 * The text behind edits, each of which is over what those before it leave.
 * @param {Text} text
 * @param {readonly {edit: Edit}[]} pending
 */
export function behindEdits(text, pending) {
  return pending.reduce((before, { edit }) => behindSteps(before, stepsOf(before, edit)), text);
}

/** How a binding keeps such texts. */
export const TEXTS = Object.freeze({ runsOf: (/** @type {Text} */ text) => text, runsBetween, behindSteps, behindEdits });

/**
 * @param {Text} text
 * @param {Edit} edit
 * @returns {Step[]}
 */
function stepsOf(text, edit) {
  switch (edit.op) {
    case "insert":
      return [{ retain: edit.at }, ...edit.runs.map((run) => ({ insert: run.text, attributes: run.marks }))];
    case "delete":
      return [{ retain: edit.at }, { delete: edit.count }];
    case "mark": {
      const runs = runsBetween(text, edit.from, edit.to);
      return [{ retain: edit.from }, ...runs.map((run) => ({ retain: lengthOf(run.text), attributes: changed(run.marks, edit) }))];
    }
  }
}

/**
 * What is left of a text before anything is taken: its first run is the last one of the list.
 * @param {Text} text
 */
function leftOf(text) {
  return [...text].reverse();
}

/**
 * Takes so many characters from those that are left.
 * @param {Run[]} left
 * @param {number} count
 */
function take(left, count) {
  /** @type {Run[]} */
  const taken = [];
  for (let due = count; due > 0; ) {
    const run = left.pop();
    if (run === undefined) throw new RangeError("the text isn't so long");
    const found = indexAfter(run.text, due);
    if (found.index < run.text.length) left.push({ ...run, text: run.text.slice(found.index) });
    taken.push({ ...run, text: run.text.slice(0, found.index) });
    due = found.left;
  }
  return taken;
}

/**
 * The same text, in runs that are as long as they can be.
 * @param {Run[]} runs
 */
function joined(runs) {
  /** @type {Run[]} */
  const found = [];
  for (const run of runs) {
    const last = found[found.length - 1];
    if (last !== undefined && isSame(last.marks, run.marks)) found[found.length - 1] = { ...last, text: last.text + run.text };
    else if (run.text !== "") found.push(run);
  }
  return found;
}
