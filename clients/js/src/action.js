/** Edits that are made at once: all of them or none, and nothing comes between them. */

import { NEVER } from "./again.js";
import { LINE_BYTES, TAKEN_CHARACTERS } from "./limit_table.js";
import { lengthOf } from "./places.js";
import { ONE_LINE } from "./refusal_table.js";
import { LONGEST, MANY, broken, isLasting, isLong, isWhole, lastingOf } from "./rules.js";

/**
 * An edit, as a request spells it, without `doc`, `rev` and `token`.
 * @typedef {import("./marks.js").Mark} Mark
 * @typedef {{op: "insert", at: number, text: string}} Insert
 * @typedef {{op: "delete", at: number, count: number}} Delete
 * @typedef {{op: "mark", from: number, to: number} & Mark} Marking
 * @typedef {{op: "unmark", from: number, to: number, kind: string, url?: string, id?: string}} Unmarking
 * @typedef {Insert | Delete | Marking | Unmarking} Edit
 */

/**
 * A place of an edit: how many characters are before it, or a place that lasts, as `anchor` gives it.
 * @typedef {import("./rules.js").Lasting} Lasting
 * @typedef {number | Lasting} Place
 */

/**
 * An edit whose places may be places that last.
 * @typedef {{op: "insert", at: Place, text: string}} PlacedInsert
 * @typedef {{op: "delete", at: Place, count: number}} PlacedDelete
 * @typedef {{op: "mark", from: Place, to: Place} & Mark} PlacedMarking
 * @typedef {{op: "unmark", from: Place, to: Place, kind: string, url?: string, id?: string}} PlacedUnmarking
 * @typedef {PlacedInsert | PlacedDelete | PlacedMarking | PlacedUnmarking} PlacedEdit
 */

/**
 * An edit as it is sent, of at most 256 characters, and which one it is of those that the caller made at once. It counts for
 * some bytes more than it has if its numbers may be longer when the call is sent again.
 * @typedef {{edit: PlacedEdit, number?: number, more?: number}} Piece
 */

/** A number that no place of a text has: one whose character isn't known is refused as such a number is (5). */
export const BEYOND = 2 ** 31;

/** What stands around the edits of a line, as long as it can be: a call that is sent again is parted as it was. */
const AROUND = { op: "edits", doc: NEVER, rev: NEVER, token: "urn:uuid:00000000-0000-0000-0000-000000000000", edits: [] };
const ROOM = LINE_BYTES - bytesOf(AROUND);

/**
 * Edits as they are sent. What is no list is refused as it is.
 * @param {readonly PlacedEdit[]} edits
 * @returns {Generator<Piece, void>}
 */
export function* piecesOf(edits) {
  for (const [number, edit] of edits.entries()) for (const piece of cut(edit)) yield { edit: piece, number: numberOf(number, edits) };
}

/**
 * Edits as they are sent by numbers alone, if so many characters are before each of their places before the first one.
 * @param {readonly PlacedEdit[]} edits
 * @param {Map<string, number>} numbers
 * @returns {Generator<Piece, void>}
 */
export function* byNumbers(edits, numbers) {
  /** @type {Edit[]} */
  const done = [];
  for (const [number, edit] of edits.entries()) {
    const found = lastingOf(edit).map(([name, place]) => [name, movedThrough(place, numbers.get(place) ?? BEYOND, done)]);
    const made = /** @type {Edit} */ ({ ...edit, ...Object.fromEntries(found) });
    if (broken({ ...made, doc: 1 }).length === 0) done.push(made);
    for (const piece of cut(made)) yield { edit: piece, number: numberOf(number, edits), more: spareOf(piece, found) };
  }
}

/**
 * By which number a refusal tells an edit apart: one alone has none.
 * @param {number} number
 * @param {readonly unknown[]} edits
 */
function numberOf(number, edits) {
  return edits.length > 1 ? number : undefined;
}

/**
 * How many digits more these numbers of an edit may have.
 * @param {any} edit
 * @param {any[][]} found
 */
function spareOf(edit, found) {
  return found.reduce((sum, [name]) => sum + String(NEVER).length - String(edit[name]).length, 0);
}

/**
 * How many characters are before a place after edits by numbers, as the program counts.
 * @param {string} place
 * @param {number} number
 * @param {Edit[]} edits
 */
function movedThrough(place, number, edits) {
  let after = number;
  for (const edit of edits) {
    if (edit.op === "insert" && (edit.at < after || (edit.at === after && staysWithNext(place)))) after += lengthOf(edit.text);
    if (edit.op === "delete" && edit.at < after) after = Math.max(edit.at, after - edit.count);
  }
  return after;
}

/**
 * Whether what is put in at a place comes before it.
 * @param {string} place
 */
function staysWithNext(place) {
  return place === "end" || place.startsWith("b");
}

/**
 * How many operations edits are that were made: one for each character that is put in or taken away, and for each mark.
 * @param {readonly Edit[]} edits
 */
export function operationsOf(edits) {
  return edits.reduce((sum, edit) => sum + (edit.op === "insert" ? lengthOf(edit.text) : edit.op === "delete" ? edit.count : 1), 0);
}

/**
 * Whether an edit at a place isn't made up of shorter ones at places: the end of a text that was put in just after a character
 * has no name.
 * @param {PlacedEdit} edit
 */
export function needsNumber(edit) {
  return edit?.op === "insert" && isLasting(edit.at) && isLong(edit);
}

/**
 * The edits of at most 256 characters that make up one: a stretch is taken away from its end on, so that nothing is if that
 * is past the end of the text. At a place that lasts, what is put in moves it on if it stays with the next character, and what
 * is taken away leaves it there. What is no edit is refused as it is.
 * @param {PlacedEdit} edit
 * @returns {Generator<PlacedEdit, void>}
 */
export function* cut(edit) {
  if (edit?.op === "insert" && isCut(edit.text) && isLong(edit)) yield* inserts(edit);
  else if (edit?.op === "delete" && isWhole(edit.count, 1)) yield* deletes(edit);
  else yield edit?.op === "unmark" ? withoutUrl(edit) : edit;
}

/**
 * A link is taken away whatever it leads to.
 * @param {PlacedUnmarking} edit
 */
function withoutUrl({ url: _, ...edit }) {
  return edit;
}

/**
 * Those that go in a line each. A `RangeError`, before there is any line, if they don't fit one and may not be parted.
 * @param {Iterable<Piece>} pieces
 * @param {boolean} parted
 * @returns {Generator<Piece[], void>}
 */
export function* linesOf(pieces, parted) {
  /** @type {Piece[]} */
  let line = [];
  let room = ROOM;
  let taken = 0;
  for (const piece of pieces) {
    const [size, count] = [bytesOf(piece.edit) + (piece.more ?? 0), takenBy(piece.edit)];
    if (line.length > 0 && (line.length === MANY || size > room || (parted && taken + count > TAKEN_CHARACTERS))) {
      if (!parted) throw new RangeError(ONE_LINE);
      yield line;
      [line, room, taken] = [[], ROOM, 0];
    }
    line.push(piece);
    room -= size;
    taken += count;
  }
  if (line.length > 0) yield line;
}

/** @param {unknown} text */
function isCut(text) {
  return typeof text === "string" && text !== "" && !/\p{Surrogate}/u.test(text);
}

/**
 * The start of the text is a number as well.
 * @param {PlacedInsert} edit
 * @returns {Generator<PlacedInsert, void>}
 */
function* inserts(edit) {
  const at = edit.at === "start" ? 0 : edit.at;
  const isMoved = isLasting(at) && staysWithNext(at);
  if (!isMoved && !isWhole(at, 0)) return yield edit;
  const characters = [...edit.text];
  for (let first = 0; first < characters.length; first += LONGEST) {
    const text = characters.slice(first, first + LONGEST).join("");
    yield { ...edit, at: typeof at === "string" ? at : at + first, text };
  }
}

/**
 * @param {PlacedDelete} edit
 * @returns {Generator<PlacedDelete, void>}
 */
function* deletes(edit) {
  const { at, count } = edit;
  if (typeof at === "number" ? !isWhole(at, 0) : !isLasting(at)) return yield edit;
  for (let end = count; end > 0; end -= LONGEST) {
    const first = Math.max(end - LONGEST, 0);
    yield { ...edit, at: typeof at === "number" ? at + first : at, count: end - first };
  }
}

/**
 * How many bytes it takes in a line, with the comma or the LF behind it.
 * @param {unknown} fields
 */
function bytesOf(fields) {
  return new TextEncoder().encode(JSON.stringify(fields)).length + 1;
}

/** @param {PlacedEdit} edit */
function takenBy(edit) {
  return edit?.op === "delete" && isWhole(edit.count, 0) ? edit.count : 0;
}
