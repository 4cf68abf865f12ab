/** The selection while one of the editor's tools has the focus: the browser draws it no longer if that is a field. */

import { Plugin, PluginKey } from "prosemirror-state";
import { Decoration, DecorationSet } from "prosemirror-view";

const key = new PluginKey("shown selection");

export function shownSelection() {
  return new Plugin({
    key,
    state: {
      init: () => false,
      apply: (transaction, isShown) => transaction.getMeta(key) ?? isShown,
    },
    props: { decorations: (state) => (key.getState(state) ? decorationOf(state) : null) },
  });
}

function decorationOf({ doc, selection: { from, to, empty } }) {
  return empty ? null : DecorationSet.create(doc, [Decoration.inline(from, to, { class: "selected" })]);
}

/** Shows the selection, or no longer. */
export function showSelection(isShown) {
  return (state, dispatch) => {
    dispatch(state.tr.setMeta(key, isShown));
    return true;
  };
}
