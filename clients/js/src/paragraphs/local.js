/** What an editor's steps amount to as edits of the program. */

import { charactersOf, deletesOf, insertsOf, markingsOf } from "../editing/edits.js";
import { sharedEnds } from "../editing/fitting.js";
import { sentMark } from "./characters.js";
import { note, placeOf, runsBetween, sizeOf } from "./positions.js";

/**
 * @typedef {import("./characters.js").Node} Node
 * @typedef {import("../editing/edits.js").Edit} Edit
 * @typedef {import("../editing/edits.js").Run} Run
 * @typedef {import("prosemirror-transform").Step} Step
 * @typedef {object} Modules
 * @property {typeof import("prosemirror-model")} model
 * @property {typeof import("prosemirror-state")} state
 * @property {typeof import("prosemirror-transform")} transform
 */

/**
 * @param {Modules} modules
 * @param {Step} step
 * @param {Node} before
 * @param {Node} after
 * @returns {Edit[]}
 */
export function editsOf({ transform }, step, before, after) {
  const { AddMarkStep, RemoveMarkStep } = transform;
  if (step instanceof AddMarkStep || step instanceof RemoveMarkStep) return markingOf(step, before, step instanceof AddMarkStep);
  const { first, last, end, count } = extentOf(step);
  if (count === 0) return [];
  note(after, before);
  const from = placeOf(before, first);
  const kept = keptBehind(before, last, after, end);
  const wanted = runsBetween(after, from, sizeOf(after) - kept);
  if (count === 1) return [...deletesOf(from, sizeOf(before) - kept - from), ...insertsOf(from, wanted)];
  // What stands between several ranges stays.
  return replaced(from, charactersOf(runsBetween(before, from, sizeOf(before) - kept)), charactersOf(wanted));
}

/**
 * @param {import("prosemirror-transform").AddMarkStep | import("prosemirror-transform").RemoveMarkStep} step
 * @param {Node} doc
 * @param {boolean} isOn
 * @returns {Edit[]}
 */
function markingOf(step, doc, isOn) {
  const mark = sentMark(step.mark);
  const from = placeOf(doc, step.from);
  const to = placeOf(doc, step.to);
  return mark === undefined || from >= to ? [] : [{ op: "mark", from, to, mark, isOn }];
}

/**
 * Where a step's changes begin, where they end before it, and where they end behind it; and how many they are.
 * @param {Step} step
 */
function extentOf(step) {
  const extent = { first: Infinity, last: -1, end: -1, count: 0 };
  step.getMap().forEach((oldStart, oldEnd, _, newEnd) => {
    extent.first = Math.min(extent.first, oldStart);
    extent.last = oldEnd;
    extent.end = newEnd;
    extent.count += 1;
  });
  return extent;
}

/**
 * How many characters stand behind a change, the same before it and after it.
 * @param {Node} before
 * @param {number} last where it ends there
 * @param {Node} after
 * @param {number} end
 */
function keptBehind(before, last, after, end) {
  // A break between paragraphs may come or go with what stands before it, so the shorter end counts.
  const kept = Math.min(sizeOf(before) - placeOf(before, last), sizeOf(after) - placeOf(after, end));
  // Halves of two pairs of surrogates may have come together as a new character.
  return kept > 0 && firstOf(before, kept) !== firstOf(after, kept) ? kept - 1 : kept;
}

/**
 * The first of a document's last characters.
 * @param {Node} doc
 * @param {number} count
 */
function firstOf(doc, count) {
  const place = sizeOf(doc) - count;
  return runsBetween(doc, place, place + 1).find(({ text }) => text !== "")?.text;
}

/**
 * The edits that put characters in the place of others: those that are the same at both ends stay, with the new marks.
 * @param {number} place
 * @param {readonly Run[]} old
 * @param {readonly Run[]} wanted
 * @returns {Edit[]}
 */
function replaced(place, old, wanted) {
  const { front, back } = sharedEnds(textsOf(old), textsOf(wanted));
  const shift = old.length - wanted.length;
  const came = wanted.slice(front, wanted.length - back);
  const stay = [...wanted.keys()].filter((index) => index < front || index >= wanted.length - back);
  const remarked = stay.map((index) => {
    const { text, marks } = wanted[index];
    return { place: place + index, text, from: old[index < front ? index : index + shift].marks, to: marks };
  });
  return [...deletesOf(place + front, old.length - back - front), ...insertsOf(place + front, came), ...markingsOf(remarked)];
}

/** @param {readonly Run[]} characters */
function textsOf(characters) {
  return characters.map(({ text }) => text);
}
