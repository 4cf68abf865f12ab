/**
 * What holds of the marks of a step or a span.
 * @param {import("../changing.js").Marks} marks
 * @param {(kind: string) => boolean} knows the kinds that are shown; the others are left out
 * @returns {Held}
 */
export function held({ strong, em, link: url, comments }: import("../changing.js").Marks, knows: (kind: string) => boolean): Held;
/**
 * Whether the program takes what a link leads to.
 * @param {unknown} url
 * @returns {url is string}
 */
export function isHeldUrl(url: unknown): url is string;
/**
 * Whether the program answers the id of a comment just so.
 * @param {string} id
 */
export function isHeldId(id: string): boolean;
/**
 * @param {Held} one
 * @param {Held} other
 */
export function isSame(one: Held, other: Held): boolean;
/**
 * The marks behind a change.
 * @param {Held} marks
 * @param {Change} change
 * @returns {Held}
 */
export function changed(marks: Held, { mark, isOn }: Change): Held;
/**
 * The changes that make some marks into others.
 * @param {Held} from
 * @param {Held} to
 * @returns {Change[]}
 */
export function changesBetween(from: Held, to: Held): Change[];
/** @type {Held} */
export const NONE: Held;
export type Mark = import("../marks.js").Mark;
export type Held = {
    strong?: true;
    em?: true;
    link?: string;
    comments?: string[];
};
/**
 * a mark that is given, or taken away
 */
export type Change = {
    mark: Mark;
    isOn: boolean;
};
import { link } from "../marks.js";
