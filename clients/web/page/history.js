/**
 * Undo and redo of what this editor did; what others did meanwhile stays. Each step that was made is kept with the step
 * that takes it back, which is moved over what came since.
 */

import { Plugin, PluginKey } from "prosemirror-state";
import { Mapping } from "prosemirror-transform";

const key = new PluginKey("history");

/** What is typed side by side, with no longer pause than this, in milliseconds, is undone at once. */
const PAUSE = 500;

/** How many steps are kept. */
const MOST = 5_000;

/**
 * A step that was made: where it moved things, what takes it back if this editor made it, whether it begins what is
 * undone at once, and how many items before it stands the one that it took back.
 * @typedef {{map: object, back?: object, first?: boolean, mirror?: number}} Item
 */

export function history() {
  return new Plugin({
    key,
    state: {
      init: () => ({ done: [], undone: [], time: 0, places: [] }),
      apply: (transaction, kept) => transaction.getMeta(key) ?? followed(kept, transaction),
    },
  });
}

/** What is kept behind a transaction; `places` are those that this editor changed last. */
function followed(kept, transaction) {
  const { done, undone, time, places } = kept;
  const { steps, docs, mapping } = transaction;
  if (steps.length === 0) return kept;
  if (transaction.getMeta("addToHistory") === false) {
    const others = mapping.maps.map((map) => ({ map }));
    return { done: longer(done, others), undone: longer(undone, others), time, places: movedPlaces(places, mapping) };
  }
  const made = steps.map((step, index) => ({ map: mapping.maps[index], back: step.invert(docs[index]) }));
  made[0].first = transaction.time - time > PAUSE || !touches(mapping.maps[0], places) || done.length === 0 || undone.length > 0;
  return { done: longer(done, made).slice(-MOST), undone: [], time: transaction.time, places: placesOf(mapping) };
}

/** Where a transaction changed the text, in the document behind it. A mark changes none. */
function placesOf(mapping) {
  return mapping.maps.flatMap((map, index) => {
    const places = [];
    map.forEach((_, __, from, to) => places.push({ from, to }));
    return movedPlaces(places, mapping.slice(index + 1));
  });
}

function movedPlaces(places, mapping) {
  return places.map(({ from, to }) => ({ from: mapping.map(from, 1), to: mapping.map(to, -1) }));
}

/** Whether a step changes the text in one of some places, or right beside it. */
function touches(map, places) {
  let isBeside = false;
  map.forEach((start, end) => (isBeside ||= places.some(({ from, to }) => start <= to && end >= from)));
  return isBeside;
}

/** Where there is nothing to take back, what others did needn't be kept. */
function longer(items, more) {
  return items.length === 0 && more[0].back === undefined ? items : [...items, ...more];
}

export function undo(state, dispatch) {
  const { done, undone } = key.getState(state);
  const taken = takenBack(state, done);
  if (taken === undefined) return false;
  const kept = { done: taken.rest, undone: [...undone, ...taken.made], time: 0, places: [] };
  dispatch(taken.tr.setMeta(key, kept).scrollIntoView());
  return true;
}

export function redo(state, dispatch) {
  const { done, undone } = key.getState(state);
  const taken = takenBack(state, undone);
  if (taken === undefined) return false;
  const kept = { done: [...done, ...taken.made], undone: taken.rest, time: 0, places: [] };
  dispatch(taken.tr.setMeta(key, kept).scrollIntoView());
  return true;
}

/** A transaction that takes back the last items that belong together, those that are left, and those that it made. */
function takenBack({ tr }, items) {
  const start = items.findLastIndex(({ first }) => first);
  if (start < 0) return undefined;
  const last = items.slice(start);
  const mapping = mappingOf(last);
  const made = [];
  const mirrors = [];
  for (let index = last.length - 1; index >= 0; index -= 1) {
    const before = tr.doc;
    const back = last[index].back?.map(mapping.slice(index + 1));
    if (!back || tr.maybeStep(back).failed) continue;
    const map = tr.mapping.maps[tr.mapping.maps.length - 1];
    mapping.appendMap(map, index);
    mirrors.push({ map, mirror: last.length + mirrors.length - index });
    made.push({ map, back: back.invert(before) });
  }
  if (made.length > 0) made[0].first = true;
  const isClean = made.length === last.length;
  const over = isClean ? [] : [...last.map(({ map, mirror }) => ({ map, mirror })), ...mirrors];
  return { tr, rest: [...items.slice(0, start), ...over], made };
}

/** The mapping over items, in which what was taken back finds its place again. */
function mappingOf(items) {
  const mapping = new Mapping();
  items.forEach(({ map, mirror }, index) => mapping.appendMap(map, mirror !== undefined && mirror <= index ? index - mirror : undefined));
  return mapping;
}
