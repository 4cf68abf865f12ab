/**
 * A ProseMirror document of plain paragraphs as a list of characters, as the program has it: one for each
 * character of a paragraph and one for each break between two.
 */

import { NONE, isHeldId, isHeldUrl } from "../editing/marks.js";
import { EM, STRONG, comment, link } from "../marks.js";
import { HALF } from "../places.js";

/**
 * @typedef {import("prosemirror-model").Node} Node
 * @typedef {import("prosemirror-model").Mark} EditorMark
 * @typedef {import("prosemirror-model").Schema} Schema
 * @typedef {import("../editing/marks.js").Held} Held
 * @typedef {import("../editing/edits.js").Run} Run
 */

/** The break between two paragraphs. Its marks aren't shown, so it has none here. */
const BREAK = Object.freeze({ text: "\n", marks: NONE });

/**
 * The texts of paragraphs, each with its marks.
 * @param {Node | import("prosemirror-model").Fragment} paragraphs
 */
export function runsOf(paragraphs) {
  /** @type {Run[]} */
  const runs = [];
  paragraphs.forEach((paragraph, _, index) => {
    if (index > 0) runs.push(BREAK);
    paragraph.forEach((node) => {
      runs.push({ text: node.text ?? "", marks: heldBy(node) });
    });
  });
  return runs;
}

/**
 * The paragraphs of texts with their marks, of which there is always one.
 * @param {Schema} schema
 * @param {readonly Run[]} runs
 */
export function paragraphsOf(schema, runs) {
  /** @type {Node[][]} */
  const paragraphs = [[]];
  for (const { text, marks } of runs) {
    const shown = marksOf(schema, marks);
    text.split("\n").forEach((line, index) => {
      if (index > 0) paragraphs.push([]);
      if (line !== "") paragraphs[paragraphs.length - 1].push(schema.text(line, shown));
    });
  }
  return paragraphs.map((nodes) => schema.nodes.paragraph.create(null, nodes));
}

/**
 * The document of texts with their marks.
 * @param {Schema} schema
 * @param {readonly Run[]} runs
 */
export function documentOf(schema, runs) {
  return schema.topNodeType.create(null, paragraphsOf(schema, runs));
}

/**
 * The program's mark for one of the editor's, if it has one.
 * @param {EditorMark} mark
 * @returns {import("../marks.js").Mark | undefined}
 */
export function sentMark(mark) {
  switch (mark.type.name) {
    case "strong":
      return STRONG;
    case "em":
      return EM;
    case "link":
      return link(mark.attrs.href);
    case "comment":
      return comment(mark.attrs.id);
  }
}

/**
 * The editor's mark for one of the program's, if the schema has one.
 * @param {Schema} schema
 * @param {{kind: string, url?: string, id?: string}} mark
 * @returns {EditorMark | undefined}
 */
export function shownMark(schema, { kind, url, id }) {
  return schema.marks[kind]?.create({ href: url, id });
}

/**
 * The editor's marks, in the schema's order.
 * @param {Schema} schema
 * @param {Held} marks
 */
export function marksOf(schema, { strong, em, link: url, comments = [] }) {
  const marks = comments.map((id) => shownMark(schema, comment(id)));
  if (strong) marks.push(shownMark(schema, STRONG));
  if (em) marks.push(shownMark(schema, EM));
  if (url !== undefined) marks.push(shownMark(schema, link(url)));
  return marks.reduce((set, mark) => mark?.addToSet(set) ?? set, /** @type {readonly EditorMark[]} */ ([]));
}

/**
 * The marks of an editor's text.
 * @param {Node} node
 * @returns {Held}
 */
function heldBy({ marks }) {
  if (marks.length === 0) return NONE;
  /** @type {Held} */
  const found = {};
  for (const mark of marks.map(sentMark)) {
    if (mark?.kind === "strong") found.strong = true;
    if (mark?.kind === "em") found.em = true;
    if (mark?.kind === "link") found.link = mark.url;
    if (mark?.kind === "comment") found.comments = [...(found.comments ?? []), mark.id].sort();
  }
  return found;
}

/**
 * Whether the program can hold a document: plain paragraphs, of text with marks that it has.
 * @param {Node} doc
 * @param {Node} [before] one that it can hold: what both have isn't looked at
 */
export function isHeld(doc, before) {
  const plain = doc.type.schema.nodes.paragraph.create();
  const { first, end } = changedIn(doc, before);
  for (let index = first; index < end; index += 1) {
    const node = doc.child(index);
    if (!node.sameMarkup(plain) || !isHeldInside(node)) return false;
  }
  return true;
}

/**
 * The children of a document that it doesn't share with one before, at the same place from its start or from its end; and how
 * many more it has.
 * @param {Node} doc
 * @param {Node} [before]
 */
export function changedIn(doc, before) {
  if (before === undefined) return { first: 0, end: doc.childCount, shift: doc.childCount };
  const shift = doc.childCount - before.childCount;
  let first = 0;
  while (first < Math.min(doc.childCount, before.childCount) && doc.child(first) === before.child(first)) first += 1;
  let end = doc.childCount;
  while (end > Math.max(first, first + shift) && doc.child(end - 1) === before.child(end - 1 - shift)) end -= 1;
  return { first, end, shift };
}

/** @param {Node} paragraph */
function isHeldInside(paragraph) {
  let held = true;
  paragraph.forEach((node) => {
    held &&= node.isText && isHeldText(node);
  });
  return held;
}

/** @param {Node} node */
function isHeldText({ text = "", marks }) {
  return !HALF.test(text) && !text.includes("\n") && marks.every(isHeldMark);
}

/** @param {EditorMark} mark */
function isHeldMark(mark) {
  const sent = sentMark(mark);
  if (sent === undefined || !shownMark(mark.type.schema, sent)?.eq(mark)) return false;
  switch (sent.kind) {
    case "link":
      return isHeldUrl(sent.url);
    case "comment":
      return isHeldId(sent.id);
    default:
      return true;
  }
}
