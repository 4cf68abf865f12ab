/** What the program answers in place of a result. */

import { ADVICE, FIELD, FULL, LIMIT, LONG, MEND, MUCH, OLDER, PAST, PLACE, RENEW, REQUEST, STALE, TOKEN } from "./refusal_table.js";
import { LATER } from "./request_table.js";
import { areEdits, broken, isLong, isPlaced } from "./rules.js";

/**
 * Why, and what to do, after a refusal of a request, if that is known.
 * @param {number} number
 * @param {import("./rules.js").Request} [request]
 */
function sentence(number, request) {
  if (number === REQUEST && request !== undefined && LATER.includes(/** @type {string} */ (request.op))) return ofFields(request, older(request));
  if (number === FIELD && request !== undefined) return ofFields(request, unknownTo(request));
  if (number === LIMIT && request !== undefined) return ofLimit(request);
  return ADVICE[number];
}

/** @param {import("./rules.js").Request} request */
function ofLimit(request) {
  if (request.op === "find") return ofFields(request, ADVICE[LIMIT]);
  if (isLong(request)) return LONG;
  return areEdits(request.edits) && request.edits.some(({ op }) => op === "delete") ? `${MUCH} ${FULL}` : FULL;
}

/**
 * Which rules the fields of a request break, or what else is the cause.
 * @param {import("./rules.js").Request} request
 * @param {string} otherwise
 */
function ofFields(request, otherwise) {
  const faults = broken(request);
  return faults.length > 0 ? `${faults.join(", ")}; ${MEND}` : otherwise;
}

/**
 * What an older program doesn't know of a request whose fields break no rule.
 * @param {Record<string, unknown>} request
 */
function unknownTo(request) {
  if (request.at_rev !== undefined) return PAST;
  if (isPlaced(request)) return PLACE;
  return request.token === undefined ? ADVICE[FIELD] : TOKEN;
}

/** @param {import("./rules.js").Request} request */
function older({ op, docs }) {
  return `${OLDER} \`${op}\`${docs === undefined ? "" : " of many documents"}; ${RENEW}`;
}

/**
 * A request that was refused: its number and its word. Nothing was changed, except where the number is 9: then the
 * device failed, and whether the edit is there is known once the file is opened again. `at` is which edit of an action was
 * refused, from 0 on, if that is told.
 */
export class Refused extends Error {
  /**
   * @param {number} number
   * @param {string} word
   * @param {import("./rules.js").Request} [request]
   * @param {number} [at]
   */
  constructor(number, word, request, at) {
    const advice = sentence(number, request);
    const which = at === undefined ? "" : ` (edit ${at} of the action, from 0 on)`;
    super(advice === undefined ? `${number} ${word}${which}` : `${number} ${word}: ${advice}${which}`);
    this.name = new.target.name;
    this.number = number;
    this.word = word;
    this.at = at;
  }
}

/**
 * The document isn't at the `rev` that the edit was made for (6), what changed since one can't be told, or this session
 * hasn't read it yet: read it anew, and make the edit for what is there.
 */
export class Stale extends Refused {}

/** The session ended before this request was answered, and why. Whether an edit is there is known once the file is opened again. */
export class Ended extends Error {
  /**
   * @param {string} message
   * @param {{wasSent?: boolean}} options whether the request was sent before
   */
  constructor(message, { wasSent = false } = {}) {
    super(message);
    this.name = "Ended";
    this.wasSent = wasSent;
  }
}

/** Nobody listens on the port, or somebody who serves no sessions. */
export class NoDaemon extends Error {
  /** @param {string} message */
  constructor(message) {
    super(message);
    this.name = "NoDaemon";
  }
}

/**
 * The error for a refusal.
 * @param {number} number
 * @param {string} word
 * @param {import("./rules.js").Request} [request]
 * @param {number} [at]
 */
export function refused(number, word, request, at) {
  return number === STALE ? new Stale(number, word, request, at) : new Refused(number, word, request, at);
}
