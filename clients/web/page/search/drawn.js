/** The stretches at which a text was found, while it is looked for: which of them is the current one, and how they are drawn. They are no part of the document. */

import { Plugin, PluginKey } from "prosemirror-state";
import { Decoration, DecorationSet } from "prosemirror-view";

const key = new PluginKey("search");

/** How many stretches are drawn on each side of the current one. */
const NEAR = 100;

/**
 * From one position to another one.
 * @typedef {{from: number, to: number}} Range
 */

/**
 * What was found, in the order of the text; `current` is the index of one of them, or -1 if there is none.
 * @typedef {{ranges: readonly Range[], current: number}} Found
 */

export function drawnSearch() {
  return new Plugin({
    key,
    state: {
      init: () => undefined,
      apply: (transaction, found) => {
        const told = transaction.getMeta(key);
        if (told !== undefined) return told === "off" ? undefined : drawn(transaction.doc, told);
        return found === undefined || !transaction.docChanged ? found : drawn(transaction.doc, moved(found, transaction.mapping));
      },
    },
    props: { decorations: (state) => key.getState(state)?.decorations },
  });
}

/**
 * What was found and is still there, or nothing while nothing is looked for.
 * @returns {Found | undefined}
 */
export function foundIn(state) {
  return key.getState(state);
}

/**
 * Shows what was found, or no longer.
 * @param {Found | "off"} told
 */
export function drawFound(told) {
  return (state, dispatch) => {
    dispatch(state.tr.setMeta(key, told).setMeta("addToHistory", false));
    return true;
  };
}

/**
 * The same after a change. A stretch of which nothing is left is gone.
 * @param {Found} found
 * @param {{map: (position: number, side: number) => number}} mapping
 * @returns {Found}
 */
export function moved({ ranges, current }, mapping) {
  const all = ranges.map(({ from, to }) => ({ from: mapping.map(from, 1), to: mapping.map(to, -1) }));
  const left = all.filter(({ from, to }) => from < to);
  return { ranges: left, current: indexAt(left, all[current]?.from ?? 0) };
}

/**
 * The index of the first stretch that begins at a position or after it; of the first of all if none does, and -1 if there is none.
 * @param {readonly Range[]} ranges
 * @param {number} position
 */
export function indexAt(ranges, position) {
  const index = ranges.findIndex(({ from }) => from >= position);
  return index < 0 && ranges.length > 0 ? 0 : index;
}

/**
 * @param {import("prosemirror-model").Node} doc
 * @param {Found} found
 */
function drawn(doc, { ranges, current }) {
  const first = Math.max(current - NEAR, 0);
  const near = ranges.slice(first, current + NEAR + 1);
  const decorations = near.map(({ from, to }, index) => Decoration.inline(from, to, { class: first + index === current ? "found current" : "found" }));
  return { ranges, current, decorations: DecorationSet.create(doc, decorations) };
}
