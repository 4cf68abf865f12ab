/**
 * Which rules the fields of a request break, in words.
 * @param {Request} request
 * @returns {string[]}
 */
export function broken(request: Request): string[];
/**
 * Whether an edit, or one of several, is about more characters than one may be.
 * @param {Request} request
 * @returns {boolean}
 */
export function isLong({ text, count, edits }: Request): boolean;
/**
 * @param {unknown} value
 * @param {number} least
 */
export function isWhole(value: unknown, least: number): boolean;
/**
 * Whether it is the text of a place that lasts.
 * @param {any} value
 * @returns {value is Lasting}
 */
export function isLasting(value: any): value is Lasting;
/**
 * The places that last which an edit names in place of numbers, by its fields.
 * @param {any} edit
 * @returns {[string, Lasting][]}
 */
export function lastingOf(edit: any): [string, Lasting][];
/**
 * Whether an edit, or one of several, is at a place that lasts.
 * @param {Request} request
 * @returns {boolean}
 */
export function isPlaced(request: Request): boolean;
/**
 * @param {unknown} value
 * @returns {value is Request[]}
 */
export function areEdits(value: unknown): value is Request[];
export type Request = Record<string, unknown>;
/**
 * The text of a place that lasts: the start or the end of the text, or just after or just before a character.
 */
export type Lasting = "start" | "end" | `a${number}@${string}` | `b${number}@${string}`;
export { EDIT_CHARACTERS as LONGEST, PLACES as MOST, EDITS as MANY, FOUND, WATCHED } from "./limit_table.js";
