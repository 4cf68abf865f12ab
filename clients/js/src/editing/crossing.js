/**
 * An edit and others' steps, both over the same text: the edit as it is behind the steps, and the steps as they are behind the
 * edit. In either order they lead to the same text.
 */

import { sizeOf } from "./edits.js";
import { NONE, changed } from "./marks.js";
import { addTo, cutAt, leftBy } from "./steps.js";

/**
 * @typedef {import("./edits.js").Edit} Edit
 * @typedef {import("./edits.js").Insert} Insert
 * @typedef {import("./edits.js").Delete} Delete
 * @typedef {import("./edits.js").Marking} Marking
 * @typedef {import("./steps.js").Placed} Placed
 * @typedef {import("./steps.js").Step} Step
 * @typedef {{edits: Edit[], steps: Step[]}} Crossed the edit may have come in parts, each over what those before it leave, or have nothing left to do
 */

/**
 * @param {Edit} edit
 * @param {readonly Step[]} steps
 * @returns {Crossed}
 */
export function crossed(edit, steps) {
  switch (edit.op) {
    case "insert":
      return crossedInsert(edit, steps);
    case "delete":
      return crossedDelete(edit, steps);
    case "mark":
      return crossedMarking(edit, steps);
  }
}

/**
 * What is put in stays behind the character before it: what others put in at the same place comes after it.
 * @param {Insert} edit
 * @param {readonly Step[]} steps
 * @returns {Crossed}
 */
function crossedInsert(edit, steps) {
  const own = { retain: sizeOf(edit) };
  /** @type {Step[]} */
  const left = [];
  /** @type {number | undefined} */
  let at;
  let shift = 0;
  for (const { step, old, now } of cutAt(steps, [edit.at])) {
    if (at === undefined && old === edit.at) {
      at = now;
      addTo(left, own);
    }
    addTo(left, step);
    shift = now + leftBy(step) - edit.at;
  }
  // Without a step from its place on, all of them end there.
  return { edits: [{ ...edit, at: at ?? edit.at + shift }], steps: left };
}

/**
 * What others put in between stays.
 * @param {Delete} edit
 * @param {readonly Step[]} steps
 * @returns {Crossed}
 */
function crossedDelete({ at, count }, steps) {
  /** @type {{at: number, count: number}[]} */
  const stretches = [];
  /** @type {Step[]} */
  const left = [];
  for (const placed of cutAt(steps, [at, at + count])) {
    const { step, now } = placed;
    if (!isOver(placed, at, at + count)) addTo(left, step);
    else if ("retain" in step) addStretch(stretches, now, step.retain);
  }
  // The last one first, so that the places of the others hold.
  return { edits: stretches.reverse().map((stretch) => ({ op: "delete", ...stretch })), steps: left };
}

/**
 * What others put in between the characters that are marked is marked too.
 * @param {Marking} edit
 * @param {readonly Step[]} steps
 * @returns {Crossed}
 */
function crossedMarking(edit, steps) {
  const placed = cutAt(steps, [edit.from, edit.to]);
  const kept = placed.filter((it) => "retain" in it.step && isOver(it, edit.from, edit.to));
  if (kept.length === 0) return { edits: [], steps: [...steps] };
  const last = kept[kept.length - 1];
  const [from, to] = [kept[0].now, last.now + leftBy(last.step)];
  /** @type {Step[]} */
  const left = [];
  for (const { step, now } of placed) addTo(left, now >= from && now < to ? markedBy(edit, step) : step);
  return { edits: [{ ...edit, from, to }], steps: left };
}

/**
 * A step over characters that an edit marks.
 * @param {Marking} edit
 * @param {Step} step
 * @returns {Step}
 */
function markedBy(edit, step) {
  if ("delete" in step || ("retain" in step && step.attributes === undefined)) return step;
  return { ...step, attributes: changed(step.attributes ?? NONE, edit) };
}

/**
 * Whether a step takes its characters from between two places.
 * @param {Placed} placed
 * @param {number} from
 * @param {number} to
 */
function isOver({ step, old }, from, to) {
  return !("insert" in step) && old >= from && old < to;
}

/**
 * @param {{at: number, count: number}[]} stretches
 * @param {number} at
 * @param {number} count
 */
function addStretch(stretches, at, count) {
  const last = stretches[stretches.length - 1];
  if (last !== undefined && last.at + last.count === at) last.count += count;
  else stretches.push({ at, count });
}
