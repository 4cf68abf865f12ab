/**
 * What the browser has selected, while states change. ProseMirror puts it right in the editor that has the focus alone.
 * If a button took the focus, the browser goes on drawing the selection, but loses it with the text that is redrawn.
 */

/** Shows a state in an editor; what is selected there stays with its text. */
export function showState(view, state) {
  const isLeft = hasLeft(view, getSelection());
  view.updateState(state);
  if (isLeft && getSelection().rangeCount > 0) select(view, getSelection().getRangeAt(0));
}

/** Whether the focus has gone from an editor without the selection. A field takes that too, if not at once. */
function hasLeft(view, { anchorNode, focusNode }) {
  if (view.hasFocus() || document.activeElement.matches("input")) return false;
  return view.dom.contains(anchorNode) && view.dom.contains(focusNode);
}

/** A change of the range itself, unlike one of the selection, doesn't bring the focus here. */
function select(view, range) {
  const { from, to } = view.state.selection;
  const start = view.domAtPos(from);
  const end = view.domAtPos(to);
  range.setStart(start.node, start.offset);
  range.setEnd(end.node, end.offset);
}
