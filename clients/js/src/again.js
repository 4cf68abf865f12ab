/** Edits that are sent again, and how often each of them is made all the same: once. */

import { WHOLE } from "./limit_table.js";
import { Stale } from "./refusals.js";
import { ONE } from "./request_table.js";

const EDITS = new Set([...ONE, "edits"]);

/** No document has so many operations: an edit that names this `rev` is never made, and answered only if it was made before. */
export const NEVER = WHOLE;

/**
 * The fields of a request.
 * @typedef {Record<string, unknown>} Request
 */

/** A name for one edit, a random UUID. However often that is sent under it, it is made once. */
export function newToken() {
  // A page that came over plain HTTP has no `randomUUID`.
  return uuidOf(crypto.getRandomValues(new Uint8Array(16)), 4);
}

/** Refuses a call that needs `tokenAfter` where there is none. */
export function needDigest() {
  if (crypto.subtle !== undefined) return;
  throw new TypeError("a page has tokens for calls of several lines only over HTTPS or from localhost: make several calls, with a token each");
}

/**
 * The token of a further line of a call that was given one: the same for the same words (RFC 9562, version 5).
 * @param {string} token
 * @param {string} words
 */
export async function tokenAfter(token, words) {
  const digits = token.replace(/[^0-9a-f]/gi, "").slice(-32);
  const bytes = Uint8Array.from(digits.match(/../g) ?? [], (byte) => parseInt(byte, 16));
  const named = new Uint8Array([...bytes, ...new TextEncoder().encode(words)]);
  return uuidOf(new Uint8Array(await crypto.subtle.digest("SHA-1", named)), 5);
}

/**
 * @param {Uint8Array} drawn
 * @param {number} version
 */
function uuidOf(drawn, version) {
  const bytes = drawn.slice(0, 16);
  bytes[6] = (version << 4) | (bytes[6] & 0x0f);
  bytes[8] = 0x80 | (bytes[8] & 0x3f);
  const digits = Array.from(bytes, (byte) => byte.toString(16).padStart(2, "0")).join("");
  return digits.replace(/^(.{8})(.{4})(.{4})(.{4})/, "$1-$2-$3-$4-");
}

/** @param {Request} request */
export function isEdit({ op }) {
  return EDITS.has(/** @type {string} */ (op));
}

/**
 * An edit with a token of its own, unless it has one; any other request as it is.
 * @param {Request} request
 */
export function withToken(request) {
  return isEdit(request) && request.token === undefined ? { ...request, token: newToken() } : request;
}

/**
 * What is sent if the answer to a request was lost. A `rev` holds on its connection alone: an edit that named one is
 * answered if it was made, and is `Stale` if it wasn't: yet the file may still read it from the connection that ended.
 * @param {Request} request
 */
export function repeated(request) {
  return request.rev === undefined ? request : { ...request, rev: NEVER };
}

/**
 * What the file of a session answers to an edit that it has, under its token, or nothing if it doesn't have it. To ask makes
 * nothing.
 * @param {import("./session.js").Session} session
 * @param {Request} edit
 */
export async function answerOnce(session, edit) {
  try {
    return await session.send({ ...edit, rev: NEVER });
  } catch (error) {
    if (error instanceof Stale) return undefined;
    throw error;
  }
}

/**
 * Whether the file of a session has an edit, under its token. To ask makes nothing.
 * @param {import("./session.js").Session} session
 * @param {Request} edit
 */
export async function hasMade(session, edit) {
  return (await answerOnce(session, edit)) !== undefined;
}
