/**
 * Edits as they are sent. What is no list is refused as it is.
 * @param {readonly PlacedEdit[]} edits
 * @returns {Generator<Piece, void>}
 */
export function piecesOf(edits: readonly PlacedEdit[]): Generator<Piece, void>;
/**
 * Edits as they are sent by numbers alone, if so many characters are before each of their places before the first one.
 * @param {readonly PlacedEdit[]} edits
 * @param {Map<string, number>} numbers
 * @returns {Generator<Piece, void>}
 */
export function byNumbers(edits: readonly PlacedEdit[], numbers: Map<string, number>): Generator<Piece, void>;
/**
 * How many operations edits are that were made: one for each character that is put in or taken away, and for each mark.
 * @param {readonly Edit[]} edits
 */
export function operationsOf(edits: readonly Edit[]): number;
/**
 * Whether an edit at a place isn't made up of shorter ones at places: the end of a text that was put in just after a character
 * has no name.
 * @param {PlacedEdit} edit
 */
export function needsNumber(edit: PlacedEdit): boolean;
/**
 * The edits of at most 256 characters that make up one: a stretch is taken away from its end on, so that nothing is if that
 * is past the end of the text. At a place that lasts, what is put in moves it on if it stays with the next character, and what
 * is taken away leaves it there. What is no edit is refused as it is.
 * @param {PlacedEdit} edit
 * @returns {Generator<PlacedEdit, void>}
 */
export function cut(edit: PlacedEdit): Generator<PlacedEdit, void>;
/**
 * Those that go in a line each. A `RangeError`, before there is any line, if they don't fit one and may not be parted.
 * @param {Iterable<Piece>} pieces
 * @param {boolean} parted
 * @returns {Generator<Piece[], void>}
 */
export function linesOf(pieces: Iterable<Piece>, parted: boolean): Generator<Piece[], void>;
/**
 * An edit, as a request spells it, without `doc`, `rev` and `token`.
 * @typedef {import("./marks.js").Mark} Mark
 * @typedef {{op: "insert", at: number, text: string}} Insert
 * @typedef {{op: "delete", at: number, count: number}} Delete
 * @typedef {{op: "mark", from: number, to: number} & Mark} Marking
 * @typedef {{op: "unmark", from: number, to: number, kind: string, url?: string, id?: string}} Unmarking
 * @typedef {Insert | Delete | Marking | Unmarking} Edit
 */
/**
 * A place of an edit: how many characters are before it, or a place that lasts, as `anchor` gives it.
 * @typedef {import("./rules.js").Lasting} Lasting
 * @typedef {number | Lasting} Place
 */
/**
 * An edit whose places may be places that last.
 * @typedef {{op: "insert", at: Place, text: string}} PlacedInsert
 * @typedef {{op: "delete", at: Place, count: number}} PlacedDelete
 * @typedef {{op: "mark", from: Place, to: Place} & Mark} PlacedMarking
 * @typedef {{op: "unmark", from: Place, to: Place, kind: string, url?: string, id?: string}} PlacedUnmarking
 * @typedef {PlacedInsert | PlacedDelete | PlacedMarking | PlacedUnmarking} PlacedEdit
 */
/**
 * An edit as it is sent, of at most 256 characters, and which one it is of those that the caller made at once. It counts for
 * some bytes more than it has if its numbers may be longer when the call is sent again.
 * @typedef {{edit: PlacedEdit, number?: number, more?: number}} Piece
 */
/** A number that no place of a text has: one whose character isn't known is refused as such a number is (5). */
export const BEYOND: number;
/**
 * An edit, as a request spells it, without `doc`, `rev` and `token`.
 */
export type Mark = import("./marks.js").Mark;
/**
 * An edit, as a request spells it, without `doc`, `rev` and `token`.
 */
export type Insert = {
    op: "insert";
    at: number;
    text: string;
};
/**
 * An edit, as a request spells it, without `doc`, `rev` and `token`.
 */
export type Delete = {
    op: "delete";
    at: number;
    count: number;
};
/**
 * An edit, as a request spells it, without `doc`, `rev` and `token`.
 */
export type Marking = {
    op: "mark";
    from: number;
    to: number;
} & Mark;
/**
 * An edit, as a request spells it, without `doc`, `rev` and `token`.
 */
export type Unmarking = {
    op: "unmark";
    from: number;
    to: number;
    kind: string;
    url?: string;
    id?: string;
};
/**
 * An edit, as a request spells it, without `doc`, `rev` and `token`.
 */
export type Edit = Insert | Delete | Marking | Unmarking;
/**
 * A place of an edit: how many characters are before it, or a place that lasts, as `anchor` gives it.
 */
export type Lasting = import("./rules.js").Lasting;
/**
 * A place of an edit: how many characters are before it, or a place that lasts, as `anchor` gives it.
 */
export type Place = number | Lasting;
/**
 * An edit whose places may be places that last.
 */
export type PlacedInsert = {
    op: "insert";
    at: Place;
    text: string;
};
/**
 * An edit whose places may be places that last.
 */
export type PlacedDelete = {
    op: "delete";
    at: Place;
    count: number;
};
/**
 * An edit whose places may be places that last.
 */
export type PlacedMarking = {
    op: "mark";
    from: Place;
    to: Place;
} & Mark;
/**
 * An edit whose places may be places that last.
 */
export type PlacedUnmarking = {
    op: "unmark";
    from: Place;
    to: Place;
    kind: string;
    url?: string;
    id?: string;
};
/**
 * An edit whose places may be places that last.
 */
export type PlacedEdit = PlacedInsert | PlacedDelete | PlacedMarking | PlacedUnmarking;
/**
 * An edit as it is sent, of at most 256 characters, and which one it is of those that the caller made at once. It counts for
 * some bytes more than it has if its numbers may be longer when the call is sent again.
 */
export type Piece = {
    edit: PlacedEdit;
    number?: number;
    more?: number;
};
