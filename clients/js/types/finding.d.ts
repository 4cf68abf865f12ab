/**
 * Places, by how many characters are before each, and the `rev` of the text in which they were looked for: an edit that is sent
 * in the same session with this `rev` is made in just that text, or is `Stale`.
 * @typedef {{places: number[], rev: number}} Found
 */
/**
 * All places from one on.
 * @param {import("./document.js").Document} document
 * @param {string} text
 * @param {import("./document.js").FindOptions} given
 * @returns {Promise<Found>}
 */
export function findAll({ session, number }: import("./document.js").Document, text: string, { from, signal }: import("./document.js").FindOptions): Promise<Found>;
/**
 * Places, by how many characters are before each, and the `rev` of the text in which they were looked for: an edit that is sent
 * in the same session with this `rev` is made in just that text, or is `Stale`.
 */
export type Found = {
    places: number[];
    rev: number;
};
