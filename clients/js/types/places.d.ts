/**
 * The place of an index of a text.
 * @param {string} text
 * @param {number} index
 * @returns {number}
 */
export function toPlace(text: string, index: number): number;
/**
 * The index of a place of a text.
 * @param {string} text
 * @param {number} place
 * @returns {number}
 */
export function toIndex(text: string, place: number): number;
/**
 * The index behind the first characters of a text, and how many of them the text hasn't.
 * @param {string} text
 * @param {number} count
 */
export function indexAfter(text: string, count: number): {
    index: number;
    left: number;
};
/**
 * How many characters a text has.
 * @param {string} text
 */
export function lengthOf(text: string): number;
/**
 * Whether an index is in the midst of a character of a text.
 * @param {string} text
 * @param {number} index
 */
export function isInside(text: string, index: number): boolean;
/** Half of a pair of surrogates, which is no character. */
export const HALF: RegExp;
