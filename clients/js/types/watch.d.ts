/** @typedef {import("./wire.js").Transport} Transport */
/**
 * `retry`: milliseconds for which a daemon that went is looked for, 10,000 unless it is given, or null not to look; `signal`:
 * ends it.
 * @typedef {{retry?: number | null, signal?: AbortSignal}} Options
 */
/**
 * What a daemon tells over a transport on which nothing else is asked. Of each document the newest number alone is kept, until
 * it is given.
 * @template T
 * @implements {AsyncIterableIterator<T>}
 */
export class Watching<T> implements AsyncIterableIterator<T> {
    /**
     * @param {() => Transport | Promise<Transport>} begin a transport over which nothing was asked so far
     * @param {Record<string, any>} request
     * @param {(document: number, rev: number) => T} given what is given for a document's number
     * @param {Options & {repeats?: boolean}} options `repeats`: whether the first number of a document over each transport is given,
     *   also if it is that of before: it may name another text there
     */
    constructor(begin: () => Transport | Promise<Transport>, request: Record<string, any>, given: (document: number, rev: number) => T, { retry, repeats, signal }?: Options & {
        repeats?: boolean;
    });
    /** @returns {Promise<IteratorResult<T>>} */
    next(): Promise<IteratorResult<T>>;
    /** @returns {Promise<IteratorResult<T>>} */
    return(): Promise<IteratorResult<T>>;
    /** Ends it, and gives its place back. */
    close(): void;
    [Symbol.asyncIterator](): Watching<T>;
    #private;
}
/**
 * The `rev`s of a document's settled operations, each above the one before: one at first, and one after each change, or
 * after some at once. Whoever looks seldom is given the newest alone.
 *
 * It is an asynchronous iterator over a transport of its own, on which nothing else is asked, and it ends once it is
 * closed, also by a `break`, or its signal is aborted: then `next` throws the signal's reason, once. If the transport ends
 * otherwise, another one is taken, for `retry` milliseconds; then it throws `Ended`. It throws `Refused` if the device
 * failed (9), there is no place (8), or the daemon is an earlier one (3).
 * @extends {Watching<number>}
 */
export class Watch extends Watching<number> {
    /**
     * @param {() => Transport | Promise<Transport>} begin a transport over which nothing was asked so far
     * @param {number} document
     * @param {Options & {repeats?: boolean}} options `repeats`: whether the first number over each transport is given, also if it
     *   is that of before: it may name another text there
     */
    constructor(begin: () => Transport | Promise<Transport>, document: number, options?: Options & {
        repeats?: boolean;
    });
}
export type Transport = import("./wire.js").Transport;
/**
 * `retry`: milliseconds for which a daemon that went is looked for, 10,000 unless it is given, or null not to look; `signal`:
 * ends it.
 */
export type Options = {
    retry?: number | null;
    signal?: AbortSignal;
};
