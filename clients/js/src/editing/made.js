/** Edits that were made, to whose new characters the program gave the marks of their surroundings. */

import { charactersOf, markingsOf, sizeOf } from "./edits.js";
import { NONE, isSame } from "./marks.js";
import { addTo, cutAt, leftBy } from "./steps.js";

/**
 * Where characters begin, and where they end.
 * @typedef {{from: number, to: number}} Stretch
 * @typedef {import("./edits.js").Edit} Edit
 * @typedef {import("./edits.js").Run} Run
 * @typedef {import("./steps.js").Placed} Placed
 * @typedef {import("./steps.js").Retain} Retain
 * @typedef {import("./steps.js").Step} Step
 * @typedef {{step: Retain, old: number, now: number}} PlacedRetain
 */

/**
 * Others' steps behind edits, with the marks that the characters were given which these put in.
 * @param {readonly Edit[]} edits
 * @param {readonly Step[]} others
 * @param {readonly Step[]} all that led from the text before the edits to the same text as others' steps do
 * @returns {readonly Step[]}
 */
export function withGiven(edits, others, all) {
  const stretches = putIn(edits);
  if (stretches.length === 0) return others;
  const came = cutAt(all, []).filter(({ step }) => "insert" in step);
  /** @type {Step[]} */
  const result = [];
  for (const placed of cutAt(others, endsOf(stretches))) {
    if (isWithin(placed, stretches) && placed.step.attributes === undefined) for (const part of given(placed, came)) addTo(result, part);
    else addTo(result, placed.step);
  }
  return result;
}

/**
 * What is left to do behind edits, so that the characters which these put in have the marks that they are meant to have, and
 * what others did.
 * @param {readonly Edit[]} edits
 * @param {(from: number, to: number) => readonly Run[]} meant what stands between two places behind the edits
 * @param {readonly Step[]} steps with the marks that the characters were given
 * @returns {{edits: Edit[], steps: readonly Step[]}}
 */
export function corrections(edits, meant, steps) {
  const stretches = putIn(edits);
  if (stretches.length === 0) return { edits: [], steps };
  /** @type {ReturnType<typeof wrong>} */
  const found = [];
  /** @type {Step[]} */
  const others = [];
  for (const placed of cutAt(steps, endsOf(stretches))) {
    if (isWithin(placed, stretches) && placed.step.attributes !== undefined) {
      found.push(...wrong(meant, placed));
      addTo(others, { retain: placed.step.retain });
    } else addTo(others, placed.step);
  }
  return { edits: markingsOf(found), steps: others };
}

/**
 * Where the characters are that edits put in, behind all of them, in the order of the text.
 * @param {readonly Edit[]} edits
 */
function putIn(edits) {
  /** @type {Stretch[]} */
  let found = [];
  for (const edit of edits) {
    if (edit.op === "insert") found = withInsert(found, { from: edit.at, to: edit.at + sizeOf(edit) });
    if (edit.op === "delete") found = withoutStretch(found, { from: edit.at, to: edit.at + edit.count });
  }
  return found;
}

/**
 * @param {readonly Stretch[]} stretches
 * @param {Stretch} added
 */
function withInsert(stretches, { from, to }) {
  const before = stretches.filter((it) => it.from < from).map((it) => ({ from: it.from, to: Math.min(it.to, from) }));
  const after = stretches.filter((it) => it.to > from).map((it) => ({ from: Math.max(it.from, from) + to - from, to: it.to + to - from }));
  return [...before, { from, to }, ...after];
}

/**
 * @param {readonly Stretch[]} stretches
 * @param {Stretch} gone
 */
function withoutStretch(stretches, { from, to }) {
  const moved = (/** @type {number} */ place) => Math.min(place, from) + Math.max(place - to, 0);
  return stretches.map((it) => ({ from: moved(it.from), to: moved(it.to) })).filter((it) => it.from < it.to);
}

/** @param {readonly Stretch[]} stretches */
function endsOf(stretches) {
  return stretches.flatMap(({ from, to }) => [from, to]);
}

/**
 * Characters that were put in, each with the marks that it was given, and those that it is meant to have: all of a stretch,
 * or none if they are all right.
 * @param {(from: number, to: number) => readonly Run[]} meant
 * @param {PlacedRetain} placed
 */
function wrong(meant, { step: { retain, attributes = NONE }, old, now }) {
  const runs = meant(old, old + retain);
  if (runs.every(({ text, marks }) => text === "\n" || isSame(marks, attributes))) return [];
  return charactersOf(runs).map(({ text, marks }, index) => ({ place: now + index, text, from: attributes, to: marks }));
}

/**
 * Whether a step leaves characters of such stretches.
 * @param {Placed} placed
 * @param {readonly Stretch[]} stretches
 * @returns {placed is PlacedRetain}
 */
function isWithin(placed, stretches) {
  return "retain" in placed.step && stretches.some(({ from, to }) => placed.old >= from && placed.old < to);
}

/**
 * Characters with the marks with which they came.
 * @param {PlacedRetain} placed
 * @param {readonly Placed[]} came
 * @returns {Step[]}
 */
function given({ step: { retain }, now }, came) {
  const parts = came.map(({ step, now: start }) => {
    const count = Math.min(start + leftBy(step), now + retain) - Math.max(start, now);
    return { retain: count, attributes: /** @type {import("./steps.js").Insert} */ (step).attributes };
  });
  return parts.filter((part) => part.retain > 0);
}
