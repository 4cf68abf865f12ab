/** Where a text stands in a document. */

import { Stale } from "./refusals.js";
import { FOUND } from "./rules.js";

/** How often it is looked for, until all is answered at one `rev`. */
const ROUNDS = 8;

/**
 * Places, by how many characters are before each, and the `rev` of the text in which they were looked for: an edit that is sent
 * in the same session with this `rev` is made in just that text, or is `Stale`.
 * @typedef {{places: number[], rev: number}} Found
 */

/**
 * All places from one on.
 * @param {import("./document.js").Document} document
 * @param {string} text
 * @param {import("./document.js").FindOptions} given
 * @returns {Promise<Found>}
 */
export async function findAll({ session, number }, text, { from = 0, signal }) {
  for (let left = ROUNDS; left > 0; left -= 1) {
    const { parted } = session;
    const ask = (/** @type {number} */ start) => session.send({ op: "find", doc: number, text, from: start }, { signal });
    let some = await ask(from);
    const { rev } = some;
    const places = /** @type {number[]} */ ([...some.places]);
    const isOne = () => some.rev === rev && session.parted === parted;
    // Those that are left are looked for in the same text.
    while (some.places.length === FOUND && isOne()) {
      some = await ask(places[places.length - 1] + 1);
      for (const place of some.places) places.push(/** @type {number} */ (place));
    }
    if (isOne()) return { places, rev };
  }
  throw new Stale(6, "stale");
}
