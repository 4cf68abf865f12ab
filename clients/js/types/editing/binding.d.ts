/**
 * @typedef {import("../document.js").Document} Document
 * @typedef {import("./edits.js").Edit} Edit
 * @typedef {import("./edits.js").Run} Run
 * @typedef {import("./pending.js").Pending} Pending
 * @typedef {import("./steps.js").Step} Step
 * @typedef {import("./teller.js").Told} Told
 */
/**
 * How a binding keeps texts. A text that is kept never changes.
 * @template T
 * @typedef {object} Texts
 * @property {(text: T) => readonly Run[]} runsOf
 * @property {(text: T, from: number, to: number) => readonly Run[]} runsBetween what stands between two places
 * @property {(text: T, steps: readonly Step[]) => T} behindSteps
 * @property {(text: T, pending: readonly Pending[]) => T} behindEdits
 */
/**
 * A text that the program has or had, with the number of its operations.
 * @template T
 * @typedef {{base: T, rev: number}} Based
 */
/**
 * What the program has, as far as is known, and the local edits behind it that it doesn't have yet.
 * @template T
 * @typedef {Based<T> & {pending: readonly Pending[]}} Known
 */
/**
 * What a binding may be given.
 * @typedef {{onError?: (error: Error) => void}} Options
 */
/**
 * A binding of one editor says what is `known` and takes what is to `tell`, calls `begin` once something waits, and keeps the
 * rest to itself.
 * @template T
 */
export class Binding<T> {
    /**
     * @param {Texts<T>} texts
     * @param {Teller} teller
     * @param {Options} options
     */
    constructor(texts: Texts<T>, teller: Teller, { onError }?: Options);
    /**
     * What is known, with all that was typed up to now; nothing if the editor isn't there yet, or any more.
     * @protected
     * @returns {Known<T> | undefined}
     */
    protected known(): Known<T> | undefined;
    /**
     * Keeps what is known now, and shows what others did.
     * @protected
     * @param {Known<T>} _known
     * @param {readonly Step[]} _steps over what the editor shows
     */
    protected tell(_known: Known<T>, _steps: readonly Step[]): void;
    /** How many edits aren't answered yet. */
    get waiting(): number;
    /** How many operations the document had when it was last read, or without an editor -1. */
    get rev(): number;
    /**
     * Goes on over another session, where the first one has ended: what was typed meanwhile is sent there. An edit that
     * wasn't answered is asked for first, by its token, and isn't made twice.
     * @param {Document} document the same one
     * @param {{retry?: boolean}} options `retry`: false if it is of another file, a peer's: that knows no token of this one,
     *   so an edit that wasn't answered is sent there as a new one. If an edit was answered, the binding sees by itself
     *   whether it is the same file
     */
    resume(document: Document, { retry }?: {
        retry?: boolean;
    }): Promise<void>;
    /** Reads what others did, and sends what is left to send. */
    pull(): Promise<void>;
    /**
     * Reads what others did whenever a watch tells of it, until that ends or the editor is gone. Throws what `settled` throws.
     * @param {AsyncIterable<number>} watch
     */
    follow(watch: AsyncIterable<number>): Promise<void>;
    /** Waits until every local step is answered. Throws the refusal, other than a stale one, that ended the sending. */
    settled(): Promise<void>;
    /**
     * Begins to send what is pending, unless that is under way.
     * @protected
     */
    protected begin(): void;
    /**
     * What is known behind local edits.
     * @protected
     * @param {Known<T>} known
     * @param {readonly Edit[]} edits
     * @returns {Known<T>}
     */
    protected followed(known: Known<T>, edits: readonly Edit[]): Known<T>;
    #private;
}
export type Document = import("../document.js").Document;
export type Edit = import("./edits.js").Edit;
export type Run = import("./edits.js").Run;
export type Pending = import("./pending.js").Pending;
export type Step = import("./steps.js").Step;
export type Told = import("./teller.js").Told;
/**
 * How a binding keeps texts. A text that is kept never changes.
 */
export type Texts<T> = {
    runsOf: (text: T) => readonly Run[];
    /**
     * what stands between two places
     */
    runsBetween: (text: T, from: number, to: number) => readonly Run[];
    behindSteps: (text: T, steps: readonly Step[]) => T;
    behindEdits: (text: T, pending: readonly Pending[]) => T;
};
/**
 * A text that the program has or had, with the number of its operations.
 */
export type Based<T> = {
    base: T;
    rev: number;
};
/**
 * What the program has, as far as is known, and the local edits behind it that it doesn't have yet.
 */
export type Known<T> = Based<T> & {
    pending: readonly Pending[];
};
/**
 * What a binding may be given.
 */
export type Options = {
    onError?: ((error: Error) => void) | undefined;
};
import { Teller } from "./teller.js";
