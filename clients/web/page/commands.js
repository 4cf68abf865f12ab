/** What keys and buttons do. Each command takes the editor's state and a place to send a transaction to, and says whether it does something. */

import { TextSelection } from "prosemirror-state";

import { schema } from "./schema.js";

const { strong, em, link, comment } = schema.marks;

/** Whether all of what is selected has a mark of a type; without a selection, whether what is typed would. */
export function has(state, type) {
  const { from, to, empty, $from } = state.selection;
  if (empty) return type.isInSet(state.storedMarks ?? $from.marks()) !== undefined;
  let all = true;
  state.doc.nodesBetween(from, to, (node) => {
    if (node.isText && !type.isInSet(node.marks)) all = false;
  });
  return all;
}

/** Gives what is selected a mark, or takes it away where all of it has one. */
function toggle(type, attributes) {
  return (state, dispatch) => {
    const { tr } = state;
    const { from, to, empty } = state.selection;
    if (empty && type.spec.inclusive === false) return false;
    const isThere = has(state, type);
    if (empty) dispatch(isThere ? tr.removeStoredMark(type) : tr.addStoredMark(type.create(attributes)));
    else dispatch(isThere ? tr.removeMark(from, to, type) : tr.addMark(from, to, type.create(attributes)));
    return true;
  };
}

export const toggleStrong = toggle(strong);
export const toggleEm = toggle(em);
export const toggleLink = (href) => toggle(link, { href });

/** Makes what is selected a link, to another address if it is one already. */
export function setLink(href) {
  return ({ tr, selection: { from, to, empty } }, dispatch) => {
    if (empty) return false;
    dispatch(tr.addMark(from, to, link.create({ href })));
    return true;
  };
}

/** Selects a stretch. */
export function selectRange({ from, to }) {
  return ({ tr, doc }, dispatch) => {
    dispatch(tr.setSelection(TextSelection.create(doc, from, to)).scrollIntoView());
    return true;
  };
}

/** What is selected, if it is within one paragraph. */
export function selectedWords({ doc, selection: { from, to, $from, $to } }) {
  return $from.sameParent($to) ? doc.textBetween(from, to) : "";
}

/** A new comment on what is selected. Several may stand on one character. */
export function addComment(id) {
  return ({ tr, selection: { from, to, empty } }, dispatch) => {
    if (empty) return false;
    dispatch(tr.addMark(from, to, comment.create({ id })));
    return true;
  };
}

/** The id of a comment at the caret, the one that was drawn last where there are several; or nothing. */
export function commentAt({ selection: { $from } }) {
  const marks = [...($from.nodeAfter?.marks ?? []), ...($from.nodeBefore?.marks ?? [])];
  return marks.filter(({ type }) => type === comment).at(-1)?.attrs.id;
}

/** Takes a comment away, wherever it stands. */
export function removeComment(id) {
  return ({ tr, doc }, dispatch) => {
    dispatch(tr.removeMark(0, doc.content.size, comment.create({ id })));
    return true;
  };
}

/** The ids of the comments in paragraphs. An editor has most paragraphs in many documents. */
const IDS = new WeakMap();

/** The ids of all comments, in the order of their first characters. */
export function commentsOf(doc) {
  const ids = new Set();
  doc.forEach((paragraph) => commentsIn(paragraph).forEach((id) => ids.add(id)));
  return [...ids];
}

function commentsIn(paragraph) {
  let ids = IDS.get(paragraph);
  if (ids === undefined) {
    ids = [];
    paragraph.forEach(({ marks }) => marks.forEach(({ type, attrs }) => type === comment && ids.push(attrs.id)));
    IDS.set(paragraph, ids);
  }
  return ids;
}

/** A new paragraph, with the marks of what stands before it. */
function split({ tr, selection, storedMarks }, dispatch) {
  const marks = storedMarks ?? selection.$from.marks();
  tr.deleteSelection();
  dispatch(tr.split(tr.selection.from).ensureMarks(marks).scrollIntoView());
  return true;
}

/** Takes away what is selected, or the break before a paragraph whose start has the caret; the rest is the browser's. */
function backspace({ tr, selection }, dispatch) {
  const { empty, $from } = selection;
  if (!empty) dispatch(tr.deleteSelection().scrollIntoView());
  else if ($from.parentOffset === 0 && $from.index(0) > 0) dispatch(tr.join($from.before()).scrollIntoView());
  else return false;
  return true;
}

/** The same for the break behind a paragraph. */
function forward({ tr, selection }, dispatch) {
  const { empty, $from } = selection;
  if (!empty) dispatch(tr.deleteSelection().scrollIntoView());
  else if ($from.parentOffset === $from.parent.content.size && $from.index(0) < $from.doc.childCount - 1) dispatch(tr.join($from.after()).scrollIntoView());
  else return false;
  return true;
}

const KEYS = { Enter: split, "Shift-Enter": split, Backspace: backspace, "Mod-Backspace": backspace, Delete: forward };

/** The keys that do what a button does. */
const BUTTONS = {
  "Mod-b": "strong",
  "Mod-i": "em",
  "Mod-k": "link",
  "Mod-Alt-m": "comment",
  "Mod-z": "undo",
  "Mod-y": "redo",
  "Mod-Shift-z": "redo",
  "Mod-f": "find",
};

/** The command of a key, or nothing. */
export function commandOf(event) {
  return KEYS[nameOf(event)];
}

/** What the button does whose key it is, or nothing. */
export function buttonOf(event) {
  return BUTTONS[nameOf(event)];
}

function nameOf({ key, ctrlKey, metaKey, altKey, shiftKey }) {
  const name = key.length === 1 ? key.toLowerCase() : key;
  return `${ctrlKey || metaKey ? "Mod-" : ""}${altKey ? "Alt-" : ""}${shiftKey ? "Shift-" : ""}${name}`;
}
