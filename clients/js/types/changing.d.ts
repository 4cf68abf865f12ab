/**
 * All marks of a character: those that hold, or each kind, with null where there is none.
 * @typedef {{strong?: true | null, em?: true | null, link?: string | null, comments?: string[] | null}} Marks
 * @typedef {import("./marks.js").Span} Span
 */
/**
 * So many characters (Unicode scalar values) stay, or go, or a text comes. Characters that stay with attributes have just
 * these marks now, else those that they had; a text without any has no marks.
 * @typedef {{retain: number, attributes?: Marks}} Retain
 * @typedef {{delete: number}} Delete
 * @typedef {{insert: string, attributes?: Marks}} Insert
 * @typedef {Retain | Delete | Insert} Step
 */
/**
 * Steps over a text, from its start on, and the `rev` of the text that they make. What stands behind the last one stays as
 * it is.
 * @typedef {{steps: Step[], rev: number}} Changes
 */
/**
 * The spans that steps make of others. A `RangeError` if the steps are over a longer text.
 * @param {Span[]} spans
 * @param {Step[]} steps
 * @returns {Span[]}
 */
export function applied(spans: Span[], steps: Step[]): Span[];
/**
 * The same steps as editors count them, in UTF-16 units, over the text of then: a Delta for Quill's `updateContents`. A
 * `RangeError` if the steps are over a longer text.
 * @param {string} text
 * @param {Step[]} steps
 * @returns {Step[]}
 */
export function delta(text: string, steps: Step[]): Step[];
/**
 * Whether steps make of some spans just these ones.
 * @param {Span[]} spans
 * @param {Step[]} steps
 * @param {Span[]} wanted
 */
export function leadTo(spans: Span[], steps: Step[], wanted: Span[]): boolean;
/**
 * All marks of a character: those that hold, or each kind, with null where there is none.
 */
export type Marks = {
    strong?: true | null;
    em?: true | null;
    link?: string | null;
    comments?: string[] | null;
};
/**
 * All marks of a character: those that hold, or each kind, with null where there is none.
 */
export type Span = import("./marks.js").Span;
/**
 * So many characters (Unicode scalar values) stay, or go, or a text comes. Characters that stay with attributes have just
 * these marks now, else those that they had; a text without any has no marks.
 */
export type Retain = {
    retain: number;
    attributes?: Marks;
};
/**
 * So many characters (Unicode scalar values) stay, or go, or a text comes. Characters that stay with attributes have just
 * these marks now, else those that they had; a text without any has no marks.
 */
export type Delete = {
    delete: number;
};
/**
 * So many characters (Unicode scalar values) stay, or go, or a text comes. Characters that stay with attributes have just
 * these marks now, else those that they had; a text without any has no marks.
 */
export type Insert = {
    insert: string;
    attributes?: Marks;
};
/**
 * So many characters (Unicode scalar values) stay, or go, or a text comes. Characters that stay with attributes have just
 * these marks now, else those that they had; a text without any has no marks.
 */
export type Step = Retain | Delete | Insert;
/**
 * Steps over a text, from its start on, and the `rev` of the text that they make. What stands behind the last one stays as
 * it is.
 */
export type Changes = {
    steps: Step[];
    rev: number;
};
