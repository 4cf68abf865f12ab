/** Edits of an editor, each of which is one request of the program. Their places count characters, in the text that the edits before them leave. */

import { indexAfter, lengthOf } from "../places.js";
import { keyOf } from "../marks.js";
import { LONGEST } from "../rules.js";
import { NONE, changesBetween, isSame } from "./marks.js";

/**
 * @typedef {import("./marks.js").Held} Held
 * @typedef {{text: string, marks: Held}} Run a text, and the marks that all of it is meant to have
 * @typedef {{op: "insert", at: number, runs: Run[]}} Insert
 * @typedef {{op: "delete", at: number, count: number}} Delete
 * @typedef {{op: "mark", from: number, to: number, mark: import("../marks.js").Mark, isOn: boolean}} Marking
 * @typedef {Insert | Delete | Marking} Edit
 */

/**
 * The edits that put texts in, each with its marks.
 * @param {number} at
 * @param {readonly Run[]} runs
 * @returns {Edit[]}
 */
export function insertsOf(at, runs) {
  /** @type {Edit[]} */
  const edits = [];
  let place = at;
  /** @type {Run[]} */
  let piece = [];
  let room = LONGEST;
  const end = () => {
    if (room < LONGEST) edits.push({ op: "insert", at: place, runs: joinedRuns(piece) });
    place += LONGEST - room;
    piece = [];
    room = LONGEST;
  };
  for (const { text, marks } of runs) {
    for (let from = 0; from < text.length; ) {
      const { index, left } = indexAfter(text.slice(from, from + 2 * room), room);
      piece.push({ text: text.slice(from, from + index), marks });
      from += index;
      room = left;
      if (room === 0) end();
    }
  }
  end();
  return edits;
}

/**
 * The edits that take characters away, from a place on.
 * @param {number} at
 * @param {number} count
 * @returns {Edit[]}
 */
export function deletesOf(at, count) {
  return piecesOf(count).map(({ from, to }) => ({ op: "delete", at, count: to - from }));
}

/**
 * The edits that give characters other marks. Breaks between paragraphs show none, and don't part what stands on both sides.
 * @param {{place: number, text: string, from: Held, to: Held}[]} characters in the order of the text
 * @returns {Edit[]}
 */
export function markingsOf(characters) {
  /** @type {Marking[]} */
  const found = [];
  /** @type {Map<string, Marking>} those that the next character may go on with */
  let open = new Map();
  let end = -1;
  for (const { place, text, from, to } of characters) {
    if (place !== end) open.clear();
    end = place + 1;
    if (text === "\n") continue;
    /** @type {typeof open} */
    const next = new Map();
    for (const change of changesBetween(from, to)) {
      const name = JSON.stringify(change);
      const marking = open.get(name) ?? { op: "mark", from: place, to: place, ...change };
      if (marking.from === marking.to) found.push(marking);
      marking.to = place + 1;
      next.set(name, marking);
    }
    open = next;
  }
  // What is taken away goes first: a link may take the place of another one.
  return [...found.filter(({ isOn }) => !isOn), ...found.filter(({ isOn }) => isOn)];
}

/**
 * The fields of the program's request for an edit.
 * @param {Edit} edit
 * @returns {import("../action.js").Edit}
 */
export function requestOf(edit) {
  switch (edit.op) {
    case "insert":
      return { op: "insert", at: edit.at, text: textOf(edit) };
    case "delete":
      return { op: "delete", at: edit.at, count: edit.count };
    case "mark":
      if (edit.isOn) return { op: "mark", from: edit.from, to: edit.to, ...edit.mark };
      return { op: "unmark", from: edit.from, to: edit.to, ...keyOf(edit.mark) };
  }
}

/** @param {Insert} edit */
export function textOf({ runs }) {
  return runs.map(({ text }) => text).join("");
}

/**
 * How many characters an insert puts in.
 * @param {Insert} edit
 */
export function sizeOf({ runs }) {
  return runs.reduce((sum, { text }) => sum + lengthOf(text), 0);
}

/**
 * The one edit that two make together, if the second one goes on where the first one ends, and that isn't too long.
 * @param {Edit | undefined} first
 * @param {Edit} second
 * @returns {Edit | undefined}
 */
export function together(first, second) {
  if (first?.op !== "insert" || second.op !== "insert") return undefined;
  const size = sizeOf(first);
  if (second.at !== first.at + size || size + sizeOf(second) > LONGEST) return undefined;
  return { ...first, runs: joinedRuns([...first.runs, ...second.runs]) };
}

/**
 * The characters of texts, each with its marks. A break between paragraphs has none.
 * @param {readonly Run[]} runs
 * @returns {Run[]}
 */
export function charactersOf(runs) {
  return runs.flatMap(({ text, marks }) => Array.from(text, (character) => ({ text: character, marks: character === "\n" ? NONE : marks })));
}

/**
 * The same texts, joined where they have the same marks. A break has none, and stays with what is before it.
 * @param {readonly Run[]} parts
 * @returns {Run[]}
 */
function joinedRuns(parts) {
  /** @type {Run[]} */
  const runs = [];
  for (const { text, marks } of parts) {
    const last = runs[runs.length - 1];
    if (last !== undefined && (text === "\n" || isSame(last.marks, marks))) runs[runs.length - 1] = { text: last.text + text, marks: last.marks };
    else runs.push({ text, marks });
  }
  return runs;
}

/**
 * The pieces of at most so many characters as one edit may have.
 * @param {number} count
 */
function piecesOf(count) {
  return Array.from({ length: Math.ceil(count / LONGEST) }, (_, number) => ({ from: number * LONGEST, to: Math.min((number + 1) * LONGEST, count) }));
}
