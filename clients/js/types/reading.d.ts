/**
 * @typedef {import("./aborting.js").Abortable} Abortable
 * @typedef {import("./action.js").Edit} Edit
 * @typedef {import("./document.js").Side} Side
 */
/**
 * A text and the `rev` that it has. Its edits count as JavaScript's strings do, are made in just this text or are
 * `Stale`, and answer the next reading; so are places that last. An index within a pair of surrogates is a `RangeError`.
 */
export class Reading {
    /**
     * @param {import("./document.js").Document} document
     * @param {string} text
     * @param {number} rev
     * @param {number} parted how many transports of the session had ended before the text was asked for
     */
    constructor(document: import("./document.js").Document, text: string, rev: number, parted?: number);
    document: import("./document.js").Document;
    text: string;
    rev: number;
    /**
     * Puts characters in at an index.
     * @param {number} index
     * @param {string} text
     * @param {Abortable} [options]
     */
    insert(index: number, text: string, options?: import("./aborting.js").Abortable | undefined): Promise<Reading>;
    /**
     * Takes away the characters from an index up to another.
     * @param {number} from
     * @param {number} to
     * @param {Abortable} [options]
     */
    delete(from: number, to: number, options?: import("./aborting.js").Abortable | undefined): Promise<Reading>;
    /**
     * Marks the characters from an index up to another.
     * @param {number} from
     * @param {number} to
     * @param {import("./marks.js").Mark} mark
     * @param {Abortable} [options]
     */
    mark(from: number, to: number, mark: import("./marks.js").Mark, options?: import("./aborting.js").Abortable | undefined): Promise<Reading>;
    /**
     * Takes a mark away from the characters from an index up to another.
     * @param {number} from
     * @param {number} to
     * @param {import("./marks.js").Mark} mark
     * @param {Abortable} [options]
     */
    unmark(from: number, to: number, mark: import("./marks.js").Mark, options?: import("./aborting.js").Abortable | undefined): Promise<Reading>;
    /**
     * Makes edits at once, as a document's `action` does. Each is at the indexes of the text that those before it leave, and a
     * `count` is one of UTF-16 units.
     * @param {readonly Edit[]} edits
     * @param {Abortable & {parted?: boolean}} [options]
     */
    action(edits: readonly Edit[], options?: (import("./aborting.js").Abortable & {
        parted?: boolean | undefined;
    }) | undefined): Promise<Reading>;
    /**
     * A name for the place at an index, which lasts, or `Stale` if the document has moved on from this text.
     * @param {number} index
     * @param {Side | (Abortable & {side?: Side})} [side]
     * @param {Abortable} [options]
     */
    anchor(index: number, side?: import("./document.js").Side | (import("./aborting.js").Abortable & {
        side?: import("./document.js").Side | undefined;
    }) | undefined, options?: import("./aborting.js").Abortable | undefined): Promise<import("./rules.js").Lasting>;
    /**
     * The index of a place that lasts in this text, or null if it is beside a character that the file doesn't have; `Stale` if
     * the document has moved on.
     * @param {string} anchor
     * @param {Abortable} [options]
     */
    index(anchor: string, options?: import("./aborting.js").Abortable | undefined): Promise<number | null>;
    /**
     * All indexes from one on at which a text stands, overlapping ones too. It is looked for here, and nobody is asked.
     * @param {string} text
     * @param {number} from
     */
    find(text: string, from?: number): number[];
    #private;
}
export type Abortable = import("./aborting.js").Abortable;
export type Edit = import("./action.js").Edit;
export type Side = import("./document.js").Side;
