/**
 * The fields of a request.
 * @typedef {Record<string, unknown>} Request
 */
/** A name for one edit, a random UUID. However often that is sent under it, it is made once. */
export function newToken(): string;
/** Refuses a call that needs `tokenAfter` where there is none. */
export function needDigest(): void;
/**
 * The token of a further line of a call that was given one: the same for the same words (RFC 9562, version 5).
 * @param {string} token
 * @param {string} words
 */
export function tokenAfter(token: string, words: string): Promise<string>;
/** @param {Request} request */
export function isEdit({ op }: Request): boolean;
/**
 * An edit with a token of its own, unless it has one; any other request as it is.
 * @param {Request} request
 */
export function withToken(request: Request): Record<string, unknown>;
/**
 * What is sent if the answer to a request was lost. A `rev` holds on its connection alone: an edit that named one is
 * answered if it was made, and is `Stale` if it wasn't: yet the file may still read it from the connection that ended.
 * @param {Request} request
 */
export function repeated(request: Request): Record<string, unknown>;
/**
 * What the file of a session answers to an edit that it has, under its token, or nothing if it doesn't have it. To ask makes
 * nothing.
 * @param {import("./session.js").Session} session
 * @param {Request} edit
 */
export function answerOnce(session: import("./session.js").Session, edit: Request): Promise<import("./wire.js").Answer | undefined>;
/**
 * Whether the file of a session has an edit, under its token. To ask makes nothing.
 * @param {import("./session.js").Session} session
 * @param {Request} edit
 */
export function hasMade(session: import("./session.js").Session, edit: Request): Promise<boolean>;
/** No document has so many operations: an edit that names this `rev` is never made, and answered only if it was made before. */
export const NEVER: 4294967295;
/**
 * The fields of a request.
 */
export type Request = Record<string, unknown>;
