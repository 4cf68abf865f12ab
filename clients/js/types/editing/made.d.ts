/**
 * Where characters begin, and where they end.
 * @typedef {{from: number, to: number}} Stretch
 * @typedef {import("./edits.js").Edit} Edit
 * @typedef {import("./edits.js").Run} Run
 * @typedef {import("./steps.js").Placed} Placed
 * @typedef {import("./steps.js").Retain} Retain
 * @typedef {import("./steps.js").Step} Step
 * @typedef {{step: Retain, old: number, now: number}} PlacedRetain
 */
/**
 * Others' steps behind edits, with the marks that the characters were given which these put in.
 * @param {readonly Edit[]} edits
 * @param {readonly Step[]} others
 * @param {readonly Step[]} all that led from the text before the edits to the same text as others' steps do
 * @returns {readonly Step[]}
 */
export function withGiven(edits: readonly Edit[], others: readonly Step[], all: readonly Step[]): readonly Step[];
/**
 * What is left to do behind edits, so that the characters which these put in have the marks that they are meant to have, and
 * what others did.
 * @param {readonly Edit[]} edits
 * @param {(from: number, to: number) => readonly Run[]} meant what stands between two places behind the edits
 * @param {readonly Step[]} steps with the marks that the characters were given
 * @returns {{edits: Edit[], steps: readonly Step[]}}
 */
export function corrections(edits: readonly Edit[], meant: (from: number, to: number) => readonly Run[], steps: readonly Step[]): {
    edits: Edit[];
    steps: readonly Step[];
};
/**
 * Where characters begin, and where they end.
 */
export type Stretch = {
    from: number;
    to: number;
};
/**
 * Where characters begin, and where they end.
 */
export type Edit = import("./edits.js").Edit;
/**
 * Where characters begin, and where they end.
 */
export type Run = import("./edits.js").Run;
/**
 * Where characters begin, and where they end.
 */
export type Placed = import("./steps.js").Placed;
/**
 * Where characters begin, and where they end.
 */
export type Retain = import("./steps.js").Retain;
/**
 * Where characters begin, and where they end.
 */
export type Step = import("./steps.js").Step;
/**
 * Where characters begin, and where they end.
 */
export type PlacedRetain = {
    step: Retain;
    old: number;
    now: number;
};
