/** Lists of steps over a text, those of `changes`, whose marks are what holds. */

import { lengthOf } from "../places.js";
import { isSame } from "./marks.js";

/**
 * So many characters stay, with these marks where it says so, or go, or come. What stands behind the last step stays.
 * @typedef {import("./marks.js").Held} Held
 * @typedef {{retain: number, attributes?: Held}} Retain
 * @typedef {{delete: number}} Delete
 * @typedef {{insert: string, attributes: Held}} Insert
 * @typedef {Retain | Delete | Insert} Step
 */

/**
 * A step, with the place where it begins in the text before, and in the one behind all steps.
 * @typedef {{step: Step, old: number, now: number}} Placed
 */

/**
 * How many characters of the text before a step is over.
 * @param {Step} step
 */
export function widthOf(step) {
  if ("insert" in step) return 0;
  return "delete" in step ? step.delete : step.retain;
}

/**
 * How many characters of the text behind it a step leaves.
 * @param {Step} step
 */
export function leftBy(step) {
  if ("delete" in step) return 0;
  return "insert" in step ? lengthOf(step.insert) : step.retain;
}

/**
 * Whether a step leaves all as it is.
 * @param {Step} step
 */
export function isPlain(step) {
  return "retain" in step && step.attributes === undefined;
}

/**
 * The first characters of a step that takes such from the text before, or the rest of them.
 * @param {Retain | Delete} step
 * @param {number} count
 * @returns {Retain | Delete}
 */
function ofWidth(step, count) {
  return "delete" in step ? { delete: count } : { ...step, retain: count };
}

/**
 * The steps in their places, cut wherever one of these places of the text before is inside of one, and made long enough to
 * reach the last of them.
 * @param {readonly Step[]} steps
 * @param {number[]} places rising
 * @returns {Placed[]}
 */
export function cutAt(steps, places) {
  /** @type {Placed[]} */
  const found = [];
  let old = 0;
  let now = 0;
  /** @param {Step} step */
  const add = (step) => {
    found.push({ step, old, now });
    old += widthOf(step);
    now += leftBy(step);
  };
  for (const step of steps) {
    const end = old + widthOf(step);
    if (!("insert" in step)) for (const place of places) if (place > old && place < end) add(ofWidth(step, place - old));
    add("insert" in step ? step : ofWidth(step, end - old));
  }
  for (const place of places) if (place > old) add({ retain: place - old });
  return found;
}

/**
 * Adds a step to a list, joined with the last one where both are of one sort.
 * @param {Step[]} list
 * @param {Step} step
 */
export function addTo(list, step) {
  const last = list[list.length - 1];
  const both = last && joined(last, step);
  if (both !== undefined) list[list.length - 1] = both;
  else if (widthOf(step) + leftBy(step) > 0) list.push(step);
}

/**
 * @param {Step} one
 * @param {Step} other
 * @returns {Step | undefined}
 */
function joined(one, other) {
  if ("delete" in one) return "delete" in other ? { delete: one.delete + other.delete } : undefined;
  if ("insert" in one) return "insert" in other && isSame(one.attributes, other.attributes) ? { ...one, insert: one.insert + other.insert } : undefined;
  if (!("retain" in other)) return undefined;
  const [marks, next] = [one.attributes, other.attributes];
  const isJoined = marks === next || (marks !== undefined && next !== undefined && isSame(marks, next));
  return isJoined ? { ...one, retain: one.retain + other.retain } : undefined;
}
