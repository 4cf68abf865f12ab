/**
 * @typedef {import("./deltas/formats.js").Format} Format
 * @typedef {import("./deltas/ops.js").Op} Op
 * @typedef {import("./document.js").Document} Document
 * @typedef {import("./editing/steps.js").Step} Step
 * @typedef {import("./editing/texts.js").Text} Text
 */
/** @typedef {import("./editing/binding.js").Known<Text>} Known */
/**
 * What a binding asks of an editor.
 * @typedef {object} Quill
 * @property {(name: any, act: (...told: any[]) => void) => unknown} on
 * @property {(name: any, act: (...told: any[]) => void) => unknown} off
 * @property {(source?: any) => void} update
 * @property {() => number} getLength
 * @property {(index?: any, length?: any) => {ops: Op[]}} getContents
 * @property {(delta: any, source?: any) => unknown} setContents
 * @property {(delta: any, source?: any) => unknown} updateContents
 * @property {(focus?: any) => {index: number, length: number} | null} getSelection
 * @property {(index: any, length?: any, source?: any) => void} setSelection
 */
/**
 * `formats` are those that the editor has: marks of any other kind are left alone.
 * @typedef {import("./editing/binding.js").Options & {formats?: readonly Format[]}} Options
 */
/**
 * Reads a document, shows it in an editor whatever was there before, and gives its binding.
 * @param {Quill} quill
 * @param {Document} document
 * @param {Options} options
 */
export function bind(quill: Quill, document: Document, { formats, ...options }?: Options): Promise<QuillBinding>;
export type Format = import("./deltas/formats.js").Format;
export type Op = import("./deltas/ops.js").Op;
export type Document = import("./document.js").Document;
export type Step = import("./editing/steps.js").Step;
export type Text = import("./editing/texts.js").Text;
export type Known = import("./editing/binding.js").Known<readonly import("./editing/edits.js").Run[]>;
/**
 * What a binding asks of an editor.
 */
export type Quill = {
    on: (name: any, act: (...told: any[]) => void) => unknown;
    off: (name: any, act: (...told: any[]) => void) => unknown;
    update: (source?: any) => void;
    getLength: () => number;
    getContents: (index?: any, length?: any) => {
        ops: Op[];
    };
    setContents: (delta: any, source?: any) => unknown;
    updateContents: (delta: any, source?: any) => unknown;
    getSelection: (focus?: any) => {
        index: number;
        length: number;
    } | null;
    setSelection: (index: any, length?: any, source?: any) => void;
};
/**
 * `formats` are those that the editor has: marks of any other kind are left alone.
 */
export type Options = import("./editing/binding.js").Options & {
    formats?: readonly Format[];
};
/** @extends {Binding<Text>} */
declare class QuillBinding extends Binding<import("./editing/texts.js").Text> {
    /**
     * @param {Quill} quill
     * @param {readonly Format[]} formats
     * @param {Teller} teller
     * @param {Known} known
     * @param {import("./editing/binding.js").Options} options
     */
    constructor(quill: Quill, formats: readonly Format[], teller: Teller, known: Known, options: import("./editing/binding.js").Options);
    /** Leaves the editor as it is. What waits isn't sent any more. */
    close(): void;
    #private;
}
import { Binding } from "./editing/binding.js";
import { Teller } from "./editing/teller.js";
export {};
