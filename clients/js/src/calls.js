/** The requests that make up one call of a document. */

import { cut } from "./action.js";
import { Refused, refused } from "./refusals.js";
import { LONGEST, MOST } from "./rules.js";

/**
 * @typedef {import("./action.js").Piece} Piece
 * @typedef {import("./again.js").Request} Request
 */

/**
 * The fields of a request that makes a part of a call, how much was made before, and which edits of the caller's it has.
 * @typedef {{fields: Request, made: number, numbers?: (number | undefined)[]}} Part
 */

/**
 * The lists of at most 256 that make up a list. What is no list is refused as it is.
 * @template T
 * @param {T[]} all
 */
export function parts(all) {
  if (!Array.isArray(all)) return [all];
  return Array.from({ length: Math.ceil(all.length / MOST) }, (_, number) => all.slice(number * MOST, (number + 1) * MOST));
}

/**
 * The edits that take a stretch away.
 * @param {import("./action.js").Place} at
 * @param {number} count
 * @returns {Generator<Part, void>}
 */
export function* stretches(at, count) {
  let made = 0;
  for (const fields of cut({ op: "delete", at, count })) {
    yield { fields, made };
    made += LONGEST;
  }
}

/**
 * The lines that make edits at once.
 * @param {Iterable<Piece[]>} pieces those of each
 * @returns {Generator<Part, void>}
 */
export function* lines(pieces) {
  let made = 0;
  for (const line of pieces) {
    yield { fields: { op: "edits", edits: line.map(({ edit }) => edit) }, made, numbers: line.map(({ number }) => number) };
    made += line.length;
  }
}

/**
 * Has a refusal of a line tell which edit of the caller's it is about.
 * @param {Part} part
 */
export function naming({ fields, numbers }) {
  return (/** @type {unknown} */ error) => {
    if (!(error instanceof Refused) || error.at === undefined) throw error;
    throw refused(error.number, error.word, fields, numbers?.[error.at]);
  };
}
