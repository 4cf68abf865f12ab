/**
 * @typedef {import("./edits.js").Edit} Edit
 * @typedef {import("./edits.js").Run} Run
 * @typedef {import("./steps.js").Step} Step
 */
/** @typedef {readonly Run[]} Text */
/**
 * All characters of a text, without marks.
 * @param {Text} text
 */
export function stringOf(text: Text): string;
/**
 * What stands between two places.
 * @param {Text} text
 * @param {number} from
 * @param {number} to
 */
export function runsBetween(text: Text, from: number, to: number): import("./edits.js").Run[];
/**
 * The text behind steps.
 * @param {Text} text
 * @param {readonly Step[]} steps
 * @returns {Text}
 */
export function behindSteps(text: Text, steps: readonly Step[]): Text;
/**
 * The text behind edits, each of which is over what those before it leave.
 * @param {Text} text
 * @param {readonly {edit: Edit}[]} pending
 */
export function behindEdits(text: Text, pending: readonly {
    edit: Edit;
}[]): Text;
/** How a binding keeps such texts. */
export const TEXTS: Readonly<{
    runsOf: (text: Text) => Text;
    runsBetween: typeof runsBetween;
    behindSteps: typeof behindSteps;
    behindEdits: typeof behindEdits;
}>;
export type Edit = import("./edits.js").Edit;
export type Run = import("./edits.js").Run;
export type Step = import("./steps.js").Step;
export type Text = readonly Run[];
