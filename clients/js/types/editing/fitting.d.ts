/**
 * @typedef {import("./edits.js").Run} Run
 * @typedef {import("./steps.js").Step} Step
 */
/**
 * The steps that were told, if they lead from one text to the other, with the marks that are read. Otherwise nobody knows
 * which characters stayed, and what differs is one stretch that was replaced.
 * @param {readonly Run[]} before its characters
 * @param {readonly Run[]} after
 * @param {readonly Step[]} [told]
 * @returns {{steps: Step[], isTold: boolean}}
 */
export function fitted(before: readonly Run[], after: readonly Run[], told?: readonly import("./steps.js").Step[] | undefined): {
    steps: Step[];
    isTold: boolean;
};
/**
 * How many characters two texts share at their starts, and at their ends.
 * @param {readonly string[]} one
 * @param {readonly string[]} other
 */
export function sharedEnds(one: readonly string[], other: readonly string[]): {
    front: number;
    back: number;
};
export type Run = import("./edits.js").Run;
export type Step = import("./steps.js").Step;
