/**
 * @typedef {import("./characters.js").Node} Node
 * @typedef {import("./characters.js").EditorMark} EditorMark
 * @typedef {import("./local.js").Modules} Modules
 * @typedef {import("../editing/edits.js").Edit} Edit
 * @typedef {import("../editing/edits.js").Run} Run
 * @typedef {import("../editing/steps.js").Step} Step
 * @typedef {import("prosemirror-transform").Transform} Transform
 */
/**
 * Takes the program's steps over a document, from its start on: a place beside what goes then keeps its neighbour before it.
 * @param {Modules} modules
 * @param {Transform} change
 * @param {readonly Step[]} steps
 */
export function show(modules: Modules, change: Transform, steps: readonly Step[]): void;
/**
 * The document behind steps.
 * @param {Modules} modules
 * @param {Node} doc
 * @param {readonly Step[]} steps
 * @returns {Node}
 */
export function behindSteps(modules: Modules, doc: Node, steps: readonly Step[]): Node;
/**
 * The document behind edits.
 * @param {Modules} modules
 * @param {Node} doc
 * @param {readonly {edit: Edit}[]} pending
 * @returns {Node}
 */
export function behind(modules: Modules, doc: Node, pending: readonly {
    edit: Edit;
}[]): Node;
export type Node = import("./characters.js").Node;
export type EditorMark = import("./characters.js").EditorMark;
export type Modules = import("./local.js").Modules;
export type Edit = import("../editing/edits.js").Edit;
export type Run = import("../editing/edits.js").Run;
export type Step = import("../editing/steps.js").Step;
export type Transform = import("prosemirror-transform").Transform;
