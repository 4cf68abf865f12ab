/**
 * @typedef {import("./changing.js").Step} Step
 * @typedef {import("./document.js").Document} Document
 * @typedef {import("./marks.js").Span} Span
 * @typedef {import("./session.js").Session} Session
 * @typedef {import("./wire.js").Transport} Transport
 */
/**
 * The options of `connect`. The signal ends it: then `next` throws the signal's reason, once.
 * @typedef {import("./connecting.js").Options} Options
 */
/**
 * The whole text, whatever was shown before.
 * @typedef {{reset: Span[], text: string, rev: number}} Reset
 */
/**
 * Steps over the text that was given last, counted in UTF-16 units: a Delta for Quill's `updateContents`.
 * @typedef {{steps: Step[], rev: number}} Change
 */
/**
 * What was read: the spans, and the steps that made them of those before, unless nobody tells.
 * @typedef {{steps: Step[] | undefined, spans: Span[], rev: number}} Read
 */
/**
 * The text of a document at first, and then what changed, whoever edited: a change as soon as it is told of, or one for some
 * at once. Whoever looks seldom is given all that came meanwhile as one.
 *
 * It is an asynchronous iterator with a session and a watch of its own, and asks for nothing before the first `next`. It ends
 * once it is closed, also by a `break`. After a lost connection it goes on with one change from what was given last, if that
 * is told and leads to what is read, and else with a reset. What ends the watch ends it with the same error.
 * @implements {AsyncIterableIterator<Reset | Change>}
 */
export class Following implements AsyncIterableIterator<Reset | Change> {
    /**
     * @param {() => Promise<Session>} connect begins the session, which goes on by itself after a lost connection
     * @param {() => Transport | Promise<Transport>} begin a transport over which nothing was asked so far, for the watch
     * @param {number} document
     * @param {Options} options
     */
    constructor(connect: () => Promise<Session>, begin: () => Transport | Promise<Transport>, document: number, { patience, timeout, retry, signal }?: Options);
    /** The spans that were given last, or that the steps made of those before. They aren't to be changed. */
    get spans(): import("./marks.js").Span[];
    /** The text of these spans. */
    get text(): string;
    /** @returns {Promise<IteratorResult<Reset | Change, void>>} */
    next(): Promise<IteratorResult<Reset | Change, void>>;
    /** @returns {Promise<IteratorResult<Reset | Change, void>>} */
    return(): Promise<IteratorResult<Reset | Change, void>>;
    /** Ends it, and gives its places back. */
    close(): void;
    [Symbol.asyncIterator](): Following;
    #private;
}
export type Step = import("./changing.js").Step;
export type Document = import("./document.js").Document;
export type Span = import("./marks.js").Span;
export type Session = import("./session.js").Session;
export type Transport = import("./wire.js").Transport;
/**
 * The options of `connect`. The signal ends it: then `next` throws the signal's reason, once.
 */
export type Options = import("./connecting.js").Options;
/**
 * The whole text, whatever was shown before.
 */
export type Reset = {
    reset: Span[];
    text: string;
    rev: number;
};
/**
 * Steps over the text that was given last, counted in UTF-16 units: a Delta for Quill's `updateContents`.
 */
export type Change = {
    steps: Step[];
    rev: number;
};
/**
 * What was read: the spans, and the steps that made them of those before, unless nobody tells.
 */
export type Read = {
    steps: Step[] | undefined;
    spans: Span[];
    rev: number;
};
