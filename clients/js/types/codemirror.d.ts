/**
 * @typedef {import("./document.js").Document} Document
 * @typedef {import("./editing/binding.js").Options} Options
 * @typedef {import("./editing/edits.js").Edit} Edit
 * @typedef {import("./editing/steps.js").Step} Step
 * @typedef {import("./editing/texts.js").Text} Text
 * @typedef {import("@codemirror/state").Transaction} Transaction
 * @typedef {import("@codemirror/view").EditorView} EditorView
 */
/**
 * CodeMirror's modules.
 * @typedef {object} Modules
 * @property {typeof import("@codemirror/state")} state
 * @property {typeof import("@codemirror/view")} view
 */
/** @typedef {import("./editing/binding.js").Known<Text>} Known */
/**
 * Reads a document and gives its binding: `doc` and `extension` are for the editor's state.
 * @param {Modules} modules the same that the editor has
 * @param {Document} document
 * @param {Options} options
 */
export function bind(modules: Modules, document: Document, options?: Options): Promise<CodeMirrorBinding>;
export type Document = import("./document.js").Document;
export type Options = import("./editing/binding.js").Options;
export type Edit = import("./editing/edits.js").Edit;
export type Step = import("./editing/steps.js").Step;
export type Text = import("./editing/texts.js").Text;
export type Transaction = import("@codemirror/state").Transaction;
export type EditorView = import("@codemirror/view").EditorView;
/**
 * CodeMirror's modules.
 */
export type Modules = {
    state: typeof import("@codemirror/state");
    view: typeof import("@codemirror/view");
};
export type Known = import("./editing/binding.js").Known<readonly import("./editing/edits.js").Run[]>;
/** @extends {Binding<Text>} */
declare class CodeMirrorBinding extends Binding<import("./editing/texts.js").Text> {
    /**
     * @param {Modules} modules
     * @param {Teller} teller
     * @param {Known} known
     * @param {Options} options
     */
    constructor({ state, view }: Modules, teller: Teller, known: Known, options: Options);
    /** The text as it was read. */
    doc: string;
    /** The extension for the editor's state. */
    extension: any[];
    #private;
}
import { Binding } from "./editing/binding.js";
import { Teller } from "./editing/teller.js";
export {};
