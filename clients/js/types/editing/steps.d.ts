/**
 * So many characters stay, with these marks where it says so, or go, or come. What stands behind the last step stays.
 * @typedef {import("./marks.js").Held} Held
 * @typedef {{retain: number, attributes?: Held}} Retain
 * @typedef {{delete: number}} Delete
 * @typedef {{insert: string, attributes: Held}} Insert
 * @typedef {Retain | Delete | Insert} Step
 */
/**
 * A step, with the place where it begins in the text before, and in the one behind all steps.
 * @typedef {{step: Step, old: number, now: number}} Placed
 */
/**
 * How many characters of the text before a step is over.
 * @param {Step} step
 */
export function widthOf(step: Step): number;
/**
 * How many characters of the text behind it a step leaves.
 * @param {Step} step
 */
export function leftBy(step: Step): number;
/**
 * Whether a step leaves all as it is.
 * @param {Step} step
 */
export function isPlain(step: Step): boolean;
/**
 * The steps in their places, cut wherever one of these places of the text before is inside of one, and made long enough to
 * reach the last of them.
 * @param {readonly Step[]} steps
 * @param {number[]} places rising
 * @returns {Placed[]}
 */
export function cutAt(steps: readonly Step[], places: number[]): Placed[];
/**
 * Adds a step to a list, joined with the last one where both are of one sort.
 * @param {Step[]} list
 * @param {Step} step
 */
export function addTo(list: Step[], step: Step): void;
/**
 * So many characters stay, with these marks where it says so, or go, or come. What stands behind the last step stays.
 */
export type Held = import("./marks.js").Held;
/**
 * So many characters stay, with these marks where it says so, or go, or come. What stands behind the last step stays.
 */
export type Retain = {
    retain: number;
    attributes?: Held;
};
/**
 * So many characters stay, with these marks where it says so, or go, or come. What stands behind the last step stays.
 */
export type Delete = {
    delete: number;
};
/**
 * So many characters stay, with these marks where it says so, or go, or come. What stands behind the last step stays.
 */
export type Insert = {
    insert: string;
    attributes: Held;
};
/**
 * So many characters stay, with these marks where it says so, or go, or come. What stands behind the last step stays.
 */
export type Step = Retain | Delete | Insert;
/**
 * A step, with the place where it begins in the text before, and in the one behind all steps.
 */
export type Placed = {
    step: Step;
    old: number;
    now: number;
};
