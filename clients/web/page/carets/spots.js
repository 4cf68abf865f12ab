/** Where a caret is in an editor's text, and where it is after a change. */

/**
 * Two positions: what is selected is between them. A caret without that has one twice.
 * @typedef {{head: number, tail: number}} Spot
 */

/**
 * Where one's own caret is after a change of others: what they put in there comes after it, and outside of a selection.
 * @template {Spot} T
 * @param {T} spot
 * @param {import("prosemirror-transform").Mapping} mapping
 * @returns {T}
 */
export function stayed(spot, mapping) {
  const { head, tail } = spot;
  const isEmpty = head === tail;
  const last = mapping.map(Math.max(head, tail), -1);
  // All that was selected may be gone, and something else be there.
  const first = Math.min(mapping.map(Math.min(head, tail), isEmpty ? -1 : 1), last);
  return head < tail ? { ...spot, head: first, tail: last } : { ...spot, head: last, tail: first };
}

/**
 * Where a caret is after what was put in there, if something was: it may be the owner of the caret who types. Else nothing.
 * @template {Spot} T
 * @param {T} spot
 * @param {import("prosemirror-transform").Mapping} mapping
 * @returns {T | undefined}
 */
export function carried(spot, mapping) {
  const { head, tail } = spot;
  const position = mapping.map(head, 1);
  return head === tail && position !== mapping.map(head, -1) ? { ...spot, head: position, tail: position } : undefined;
}
