/**
 * @typedef {import("./action.js").PlacedEdit} PlacedEdit
 * @typedef {import("./again.js").Request} Request
 * @typedef {import("./calls.js").Part} Part
 * @typedef {import("./document.js").AskOptions} AskOptions
 * @typedef {import("./document.js").Document} Document
 * @typedef {import("./document.js").EditOptions} EditOptions
 * @typedef {import("./wire.js").Answer} Answer
 */
/**
 * Refuses the number of another session. After a crash, or at a peer, it may name another text, and would be taken for
 * this one.
 * @param {Document} document
 * @param {number} [rev]
 * @param {AbortSignal} [signal]
 */
export function needKnown({ session, number }: Document, rev?: number | undefined, signal?: AbortSignal | undefined): void;
/**
 * The answers to several requests, which are sent at once: at this `rev`, or else at any one.
 * @param {Document} document
 * @param {Request[]} requests
 * @param {AskOptions} given
 * @returns {Promise<Answer[]>}
 */
export function askAll(document: Document, requests: Request[], { rev, signal }: AskOptions): Promise<Answer[]>;
/**
 * Makes edits at once, or line by line, and gives the last answer.
 * @param {Document} document
 * @param {readonly PlacedEdit[]} edits
 * @param {boolean} parted
 * @param {EditOptions} given
 */
export function make(document: Document, edits: readonly PlacedEdit[], parted: boolean, given: EditOptions): Promise<number>;
/**
 * Makes parts of a call one after the other, and gives the last answer.
 * @param {Document} document
 * @param {Generator<Part, void>} parts
 * @param {EditOptions} given
 * @returns {Promise<number>}
 */
export function editAll(document: Document, parts: Generator<Part, void>, { rev, token, signal }: EditOptions): Promise<number>;
export type PlacedEdit = import("./action.js").PlacedEdit;
export type Request = import("./again.js").Request;
export type Part = import("./calls.js").Part;
export type AskOptions = import("./document.js").AskOptions;
export type Document = import("./document.js").Document;
export type EditOptions = import("./document.js").EditOptions;
export type Answer = import("./wire.js").Answer;
