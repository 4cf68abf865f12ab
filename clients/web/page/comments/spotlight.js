/** The comment that is shown: its stretch stands out. That is in this editor alone, and no part of the document. */

import { Plugin, PluginKey } from "prosemirror-state";
import { Decoration, DecorationSet } from "prosemirror-view";

import { hueOf, schema } from "../schema.js";

const key = new PluginKey("spotlight");

/** The id that says that none is shown. */
export const NONE = "";

export function spotlight() {
  return new Plugin({
    key,
    state: {
      init: () => NONE,
      apply: (transaction, id) => transaction.getMeta(key) ?? id,
    },
    props: { decorations: (state) => (shownComment(state) === NONE ? null : DecorationSet.create(state.doc, stretchOf(state.doc, shownComment(state)))) },
  });
}

/** The id of the comment that is shown. */
export function shownComment(state) {
  return key.getState(state);
}

/** Shows a comment, or none. */
export function showComment(id) {
  return (state, dispatch) => {
    dispatch(state.tr.setMeta(key, id));
    return true;
  };
}

function stretchOf(doc, id) {
  const found = [];
  doc.descendants(({ marks, nodeSize }, position) => {
    const isThere = marks.some(({ type, attrs }) => type === schema.marks.comment && attrs.id === id);
    if (isThere) found.push(Decoration.inline(position, position + nodeSize, { class: `shown ${hueOf(id)}` }));
  });
  return found;
}
