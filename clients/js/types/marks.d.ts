/**
 * A link to a URL of 1 to 1,024 bytes. To take a link away the URL doesn't matter.
 * @param {string} [url]
 * @returns {Mark}
 */
export function link(url?: string | undefined): Mark;
/**
 * A comment, by its id, a UUID; what it says is kept elsewhere. Several may stand on one character.
 * @param {string} id
 * @returns {Mark}
 */
export function comment(id: string): Mark;
/**
 * What an `unmark` names of a mark.
 * @param {Mark} mark
 */
export function keyOf(mark: Mark): {
    kind: "comment";
    id: string;
} | {
    kind: string;
};
/** Marks, and spans of text with marks. */
/**
 * A mark, as a request spells it.
 * @typedef {{kind: "strong"} | {kind: "em"} | {kind: "link", url: string} | {kind: "comment", id: string}} Mark
 */
/**
 * Text whose characters all have the same marks, as long as it can be. It has only the keys that hold.
 * @typedef {{text: string, strong?: true, em?: true, link?: string, comments?: string[]}} Span
 */
/** @type {Mark} */
export const STRONG: Mark;
/** @type {Mark} */
export const EM: Mark;
/**
 * A mark, as a request spells it.
 */
export type Mark = {
    kind: "strong";
} | {
    kind: "em";
} | {
    kind: "link";
    url: string;
} | {
    kind: "comment";
    id: string;
};
/**
 * Text whose characters all have the same marks, as long as it can be. It has only the keys that hold.
 */
export type Span = {
    text: string;
    strong?: true;
    em?: true;
    link?: string;
    comments?: string[];
};
