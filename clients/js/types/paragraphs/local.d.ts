/**
 * @typedef {import("./characters.js").Node} Node
 * @typedef {import("../editing/edits.js").Edit} Edit
 * @typedef {import("../editing/edits.js").Run} Run
 * @typedef {import("prosemirror-transform").Step} Step
 * @typedef {object} Modules
 * @property {typeof import("prosemirror-model")} model
 * @property {typeof import("prosemirror-state")} state
 * @property {typeof import("prosemirror-transform")} transform
 */
/**
 * @param {Modules} modules
 * @param {Step} step
 * @param {Node} before
 * @param {Node} after
 * @returns {Edit[]}
 */
export function editsOf({ transform }: Modules, step: Step, before: Node, after: Node): Edit[];
export type Node = import("./characters.js").Node;
export type Edit = import("../editing/edits.js").Edit;
export type Run = import("../editing/edits.js").Run;
export type Step = import("prosemirror-transform").Step;
export type Modules = {
    model: typeof import("prosemirror-model");
    state: typeof import("prosemirror-state");
    transform: typeof import("prosemirror-transform");
};
