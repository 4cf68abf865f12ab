/**
 * Notes where the paragraphs of a document are, by those of one before, most of which it shares.
 * @param {Node} doc
 * @param {Node} before
 */
export function note(doc: Node, before: Node): void;
/**
 * How many characters a document has.
 * @param {Node} doc
 */
export function sizeOf(doc: Node): number;
/**
 * The place of a position; one between two paragraphs counts as the end of the first, one inside of a character as its start.
 * @param {Node} doc
 * @param {number} position
 */
export function placeOf(doc: Node, position: number): number;
/**
 * The position of a place.
 * @param {Node} doc
 * @param {number} place
 */
export function positionOf(doc: Node, place: number): number;
/**
 * The texts between two places, each with its marks.
 * @param {Node} doc
 * @param {number} from
 * @param {number} to
 */
export function runsBetween(doc: Node, from: number, to: number): import("../editing/edits.js").Run[];
export type Node = import("prosemirror-model").Node;
/**
 * Where each paragraph of a document begins: before its text, as a place and as a position. The last number of each list is
 * where a further one would.
 */
export type Starts = {
    places: number[];
    positions: number[];
};
