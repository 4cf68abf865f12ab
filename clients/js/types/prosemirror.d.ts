/**
 * @typedef {import("./document.js").Document} Document
 * @typedef {import("./editing/binding.js").Options} Options
 * @typedef {import("./editing/steps.js").Step} Step
 * @typedef {import("./paragraphs/local.js").Modules} Modules
 * @typedef {import("./paragraphs/characters.js").Node} Node
 * @typedef {import("prosemirror-state").Transaction} Transaction
 * @typedef {import("prosemirror-view").EditorView} EditorView
 */
/** @typedef {import("./editing/binding.js").Known<Node>} Known */
/**
 * Reads a document and gives its binding: `doc` and `plugin` are for the editor's state.
 * @param {Modules} modules prosemirror's modules, the same that the editor has
 * @param {import("prosemirror-model").Schema} schema
 * @param {Document} document
 * @param {Options} options
 */
export function bind(modules: Modules, schema: import("prosemirror-model").Schema, document: Document, options?: Options): Promise<ProseMirrorBinding>;
export type Document = import("./document.js").Document;
export type Options = import("./editing/binding.js").Options;
export type Step = import("./editing/steps.js").Step;
export type Modules = import("./paragraphs/local.js").Modules;
export type Node = import("./paragraphs/characters.js").Node;
export type Transaction = import("prosemirror-state").Transaction;
export type EditorView = import("prosemirror-view").EditorView;
export type Known = import("./editing/binding.js").Known<Node>;
/** @extends {Binding<Node>} */
declare class ProseMirrorBinding extends Binding<import("prosemirror-model").Node> {
    /**
     * @param {Modules} modules
     * @param {Teller} teller
     * @param {Node} doc
     * @param {number} rev
     * @param {Options} options
     */
    constructor(modules: Modules, teller: Teller, doc: Node, rev: number, options: Options);
    /** The document as it was read. */
    doc: import("prosemirror-model").Node;
    /** The plugin for the editor's state. */
    plugin: import("prosemirror-state").Plugin;
    #private;
}
import { Binding } from "./editing/binding.js";
import { Teller } from "./editing/teller.js";
export {};
