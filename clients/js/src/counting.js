/** What is counted of a file: its documents, their versions, and its room. */

/**
 * A document that has operations: its number, how many characters (Unicode scalar values) it shows, how many operations it has,
 * and the replicas that have some in it, in rising order. A removed character still counts among the operations.
 * @typedef {{number: number, characters: number, operations: number, writers: string[]}} DocumentCounts
 */

/**
 * A stretch of a document's operations, all of one replica: how many operations the document has after it, whose they are, and
 * how many.
 * @typedef {{rev: number, replica: string, operations: number}} Version
 */

/**
 * How much a file has of what there is a limit to, each with its limit: bytes of records, documents and replicas that have
 * operations, operations, and steps since the file was opened (edits, merges and commits).
 * @typedef {{bytes: number, bytesLimit: number, documents: number, documentsLimit: number, operations: number, operationsLimit: number,
 *   replicas: number, replicasLimit: number, steps: number, stepsLimit: number}} Room
 */

/** The parts of a room, each of which an answer names with its limit. */
export const PARTS = ["bytes", "documents", "operations", "replicas", "steps"];

/**
 * What an answer to `documents` tells.
 * @param {import("./wire.js").Answer} answer
 * @returns {DocumentCounts[]}
 */
export function countsOf({ documents }) {
  const rows = /** @type {import("./wire.js").Row[]} */ (documents);
  return rows.map(({ doc, chars, ops, writers }) => ({ number: doc, characters: chars, operations: ops, writers }));
}

/**
 * What an answer to `versions` tells.
 * @param {import("./wire.js").Answer} answer
 * @returns {Version[]}
 */
export function versionsOf({ versions }) {
  return versions.map(({ rev, replica, ops }) => ({ rev, replica, operations: ops }));
}

/**
 * What an answer to `room` tells.
 * @param {import("./wire.js").Answer} answer
 * @returns {Room}
 */
export function roomOf(answer) {
  const told = /** @type {Record<string, any>} */ (answer);
  const parts = PARTS.flatMap((part) => [[part, told[part]], [`${part}Limit`, told[`${part}_limit`]]]);
  return Object.fromEntries(parts);
}
