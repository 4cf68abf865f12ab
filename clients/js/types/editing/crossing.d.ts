/**
 * @typedef {import("./edits.js").Edit} Edit
 * @typedef {import("./edits.js").Insert} Insert
 * @typedef {import("./edits.js").Delete} Delete
 * @typedef {import("./edits.js").Marking} Marking
 * @typedef {import("./steps.js").Placed} Placed
 * @typedef {import("./steps.js").Step} Step
 * @typedef {{edits: Edit[], steps: Step[]}} Crossed the edit may have come in parts, each over what those before it leave, or have nothing left to do
 */
/**
 * @param {Edit} edit
 * @param {readonly Step[]} steps
 * @returns {Crossed}
 */
export function crossed(edit: Edit, steps: readonly Step[]): Crossed;
export type Edit = import("./edits.js").Edit;
export type Insert = import("./edits.js").Insert;
export type Delete = import("./edits.js").Delete;
export type Marking = import("./edits.js").Marking;
export type Placed = import("./steps.js").Placed;
export type Step = import("./steps.js").Step;
/**
 * the edit may have come in parts, each over what those before it leave, or have nothing left to do
 */
export type Crossed = {
    edits: Edit[];
    steps: Step[];
};
