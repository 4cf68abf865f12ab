/** Steps from a text to what is read anew, over a connection for which the numbers of the one before don't hold. */

import { isSame } from "./marks.js";
import { addTo, cutAt, widthOf } from "./steps.js";

/**
 * @typedef {import("./edits.js").Run} Run
 * @typedef {import("./steps.js").Step} Step
 */

/**
 * The steps that were told, if they lead from one text to the other, with the marks that are read. Otherwise nobody knows
 * which characters stayed, and what differs is one stretch that was replaced.
 * @param {readonly Run[]} before its characters
 * @param {readonly Run[]} after
 * @param {readonly Step[]} [told]
 * @returns {{steps: Step[], isTold: boolean}}
 */
export function fitted(before, after, told) {
  const isTold = told !== undefined && leads(told, before, after);
  return { steps: withMarks(isTold ? told : replacing(before, after), before, after), isTold };
}

/**
 * Whether steps lead from a text to another one.
 * @param {readonly Step[]} steps
 * @param {readonly Run[]} before
 * @param {readonly Run[]} after
 */
function leads(steps, before, after) {
  if (steps.reduce((sum, step) => sum + widthOf(step), 0) > before.length) return false;
  let place = 0;
  for (const { step, old } of cutAt(steps, [before.length])) {
    if ("delete" in step) continue;
    const texts = "insert" in step ? [...step.insert] : textsOf(before.slice(old, old + step.retain));
    if (!texts.every((text, index) => after[place + index]?.text === text)) return false;
    place += texts.length;
  }
  return place === after.length;
}

/**
 * @param {readonly Run[]} before
 * @param {readonly Run[]} after
 * @returns {Step[]}
 */
function replacing(before, after) {
  const { front, back } = sharedEnds(textsOf(before), textsOf(after));
  const came = after.slice(front, after.length - back);
  return [
    { retain: front },
    { delete: before.length - back - front },
    ...came.map(({ text, marks }) => ({ insert: text, attributes: marks })),
  ];
}

/**
 * How many characters two texts share at their starts, and at their ends.
 * @param {readonly string[]} one
 * @param {readonly string[]} other
 */
export function sharedEnds(one, other) {
  const most = Math.min(one.length, other.length);
  let front = 0;
  while (front < most && one[front] === other[front]) front += 1;
  let back = 0;
  while (back < most - front && one[one.length - 1 - back] === other[other.length - 1 - back]) back += 1;
  return { front, back };
}

/**
 * The steps with the marks that the characters have behind them.
 * @param {readonly Step[]} steps
 * @param {readonly Run[]} before
 * @param {readonly Run[]} after
 */
function withMarks(steps, before, after) {
  /** @type {Step[]} */
  const result = [];
  for (const { step, old, now } of cutAt(steps, [before.length])) {
    if ("delete" in step) addTo(result, step);
    else if ("insert" in step) [...step.insert].forEach((text, index) => addTo(result, { insert: text, attributes: after[now + index].marks }));
    else for (let index = 0; index < step.retain; index += 1) addTo(result, kept(before[old + index].marks, after[now + index]));
  }
  return result;
}

/**
 * A character that stays.
 * @param {import("./marks.js").Held} marks that it had
 * @param {Run} character as it is
 * @returns {Step}
 */
function kept(marks, character) {
  return character.text === "\n" || isSame(marks, character.marks) ? { retain: 1 } : { retain: 1, attributes: character.marks };
}

/** @param {readonly Run[]} characters */
function textsOf(characters) {
  return characters.map(({ text }) => text);
}
