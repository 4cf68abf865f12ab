/** The colours of writers in a text, while they are on. They are no part of the document. */

import { Plugin, PluginKey } from "prosemirror-state";
import { Decoration, DecorationSet } from "prosemirror-view";

import { after, together } from "./ranges.js";

const key = new PluginKey("writers");

/** Whoever writes in this editor: the replica behind it, whichever that is. */
export const OWN = "own";

/** @typedef {import("./ranges.js").Range} Range */

/**
 * @param {(by: string) => {name: string, colour: number}} writer how somebody is called, and the number of their colour
 */
export function drawnAuthors(writer) {
  const drawn = (doc, ranges) => ({ ranges, decorations: DecorationSet.create(doc, ranges.map((range) => decorationOf(range, writer(range.by)))) });
  return new Plugin({
    key,
    state: {
      init: () => undefined,
      apply: (transaction, shown) => {
        const told = transaction.getMeta(key);
        if (told === "off") return undefined;
        if (told === "on") return drawn(transaction.doc, shown?.ranges ?? []);
        if (shown === undefined || (told === undefined && !transaction.docChanged)) return shown;
        const moved = movedBy(shown.ranges, transaction, isOthers(transaction) ? undefined : OWN);
        return drawn(transaction.doc, told === undefined ? moved : together(moved, told));
      },
    },
    props: { decorations: (state) => key.getState(state)?.decorations },
  });
}

/**
 * The stretches whose writers are known, or nothing while no colours are shown.
 * @returns {Range[] | undefined}
 */
export function authorsIn(state) {
  return key.getState(state)?.ranges;
}

/**
 * Has colours shown, or shown anew, or no longer; or adds stretches whose writers were found.
 * @param {"on" | "off" | Range[]} told
 */
export function drawAuthors(told) {
  return (state, dispatch) => {
    dispatch(state.tr.setMeta(key, told).setMeta("addToHistory", false));
    return true;
  };
}

/**
 * Where stretches are after a transaction.
 * @param {Range[]} ranges
 * @param {import("prosemirror-state").Transaction} transaction
 * @param {string | undefined} by who put in what is new
 */
export function movedBy(ranges, { mapping }, by) {
  return mapping.maps.reduce((moved, map) => after(moved, map, by), ranges);
}

function isOthers(transaction) {
  return transaction.getMeta("addToHistory") === false;
}

/** @param {Range} range */
function decorationOf({ from, to }, { name, colour }) {
  return Decoration.inline(from, to, { class: `written writer-${colour}`, title: name });
}
