/**
 * A step over contents, which counts UTF-16 units; an embed counts as one.
 * @typedef {{insert?: unknown, delete?: number, retain?: unknown, attributes?: import("./formats.js").Attributes}} Op
 */
/**
 * How many units of the contents before it a step is over.
 * @param {Op} op
 * @returns {number}
 */
export function widthOf(op: Op): number;
/**
 * How many units a step puts in.
 * @param {Op} op
 */
export function putInBy({ insert }: Op): number;
/**
 * Whether a step leaves all as it is.
 * @param {Op} op
 */
export function isPlain({ retain, attributes }: Op): boolean;
/**
 * A text without halves of characters.
 * @param {string} text
 */
export function wellFormed(text: string): string;
/**
 * A text in parts: halves of characters, and what is between them.
 * @param {string} text
 */
export function partsOf(text: string): {
    part: string;
    isHalf: boolean;
}[];
/**
 * A step over contents, which counts UTF-16 units; an embed counts as one.
 */
export type Op = {
    insert?: unknown;
    delete?: number;
    retain?: unknown;
    attributes?: import("./formats.js").Attributes;
};
