/**
 * @typedef {import("./marks.js").Held} Held
 * @typedef {{text: string, marks: Held}} Run a text, and the marks that all of it is meant to have
 * @typedef {{op: "insert", at: number, runs: Run[]}} Insert
 * @typedef {{op: "delete", at: number, count: number}} Delete
 * @typedef {{op: "mark", from: number, to: number, mark: import("../marks.js").Mark, isOn: boolean}} Marking
 * @typedef {Insert | Delete | Marking} Edit
 */
/**
 * The edits that put texts in, each with its marks.
 * @param {number} at
 * @param {readonly Run[]} runs
 * @returns {Edit[]}
 */
export function insertsOf(at: number, runs: readonly Run[]): Edit[];
/**
 * The edits that take characters away, from a place on.
 * @param {number} at
 * @param {number} count
 * @returns {Edit[]}
 */
export function deletesOf(at: number, count: number): Edit[];
/**
 * The edits that give characters other marks. Breaks between paragraphs show none, and don't part what stands on both sides.
 * @param {{place: number, text: string, from: Held, to: Held}[]} characters in the order of the text
 * @returns {Edit[]}
 */
export function markingsOf(characters: {
    place: number;
    text: string;
    from: Held;
    to: Held;
}[]): Edit[];
/**
 * The fields of the program's request for an edit.
 * @param {Edit} edit
 * @returns {import("../action.js").Edit}
 */
export function requestOf(edit: Edit): import("../action.js").Edit;
/** @param {Insert} edit */
export function textOf({ runs }: Insert): string;
/**
 * How many characters an insert puts in.
 * @param {Insert} edit
 */
export function sizeOf({ runs }: Insert): number;
/**
 * The one edit that two make together, if the second one goes on where the first one ends, and that isn't too long.
 * @param {Edit | undefined} first
 * @param {Edit} second
 * @returns {Edit | undefined}
 */
export function together(first: Edit | undefined, second: Edit): Edit | undefined;
/**
 * The characters of texts, each with its marks. A break between paragraphs has none.
 * @param {readonly Run[]} runs
 * @returns {Run[]}
 */
export function charactersOf(runs: readonly Run[]): Run[];
export type Held = import("./marks.js").Held;
/**
 * a text, and the marks that all of it is meant to have
 */
export type Run = {
    text: string;
    marks: Held;
};
export type Insert = {
    op: "insert";
    at: number;
    runs: Run[];
};
export type Delete = {
    op: "delete";
    at: number;
    count: number;
};
export type Marking = {
    op: "mark";
    from: number;
    to: number;
    mark: import("../marks.js").Mark;
    isOn: boolean;
};
export type Edit = Insert | Delete | Marking;
