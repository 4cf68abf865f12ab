/** Whether two editors show the same. Paragraphs that were found to be the same once aren't compared again. */

/**
 * For a paragraph the one that it was found to be the same as last. An editor has most paragraphs in many documents.
 * @type {WeakMap<import("prosemirror-model").Node, import("prosemirror-model").Node>}
 */
const FOUND = new WeakMap();

/**
 * @param {import("prosemirror-model").Node} one
 * @param {import("prosemirror-model").Node} other
 */
export function isSameText(one, other) {
  if (one.childCount !== other.childCount) return false;
  for (let index = 0; index < one.childCount; index += 1) {
    if (!isSameParagraph(one.child(index), other.child(index))) return false;
  }
  return true;
}

function isSameParagraph(one, other) {
  if (FOUND.get(one) === other) return true;
  if (!one.eq(other)) return false;
  FOUND.set(one, other);
  return true;
}
