/**
 * @typedef {import("./edits.js").Edit} Edit
 * @typedef {import("./steps.js").Step} Step
 * @typedef {{edit: Edit, token: string}} Pending
 */
/**
 * New edits. However often one of them is sent, it is made once.
 * @param {readonly Edit[]} edits
 * @returns {Pending[]}
 */
export function pendingOf(edits: readonly Edit[]): Pending[];
/**
 * What is pending behind further edits: what is typed on becomes one edit with what waits before it. The first of them may
 * be on their way, and stay as they are.
 * @param {readonly Pending[]} pending
 * @param {readonly Edit[]} edits
 * @param {number} sent how many
 * @returns {Pending[]}
 */
export function withEdits(pending: readonly Pending[], edits: readonly Edit[], sent?: number): Pending[];
/**
 * How many of the first go in one line.
 * @param {readonly Pending[]} pending
 */
export function fitting(pending: readonly Pending[]): number;
/**
 * The fields of the request that makes edits at once.
 * @param {readonly Pending[]} pending
 * @returns {Record<string, unknown>}
 */
export function lineOf(pending: readonly Pending[]): Record<string, unknown>;
/**
 * What is pending as it is behind others' steps, and the steps as they are behind it.
 * @param {readonly Pending[]} pending
 * @param {readonly Step[]} steps
 * @returns {{pending: Pending[], steps: readonly Step[]}}
 */
export function behindOthers(pending: readonly Pending[], steps: readonly Step[]): {
    pending: Pending[];
    steps: readonly Step[];
};
/**
 * How many characters of the text, as it was or as it came to be, edits take away or mark.
 * @param {readonly Pending[]} pending
 */
export function reachOf(pending: readonly Pending[]): number;
export type Edit = import("./edits.js").Edit;
export type Step = import("./steps.js").Step;
export type Pending = {
    edit: Edit;
    token: string;
};
