/** Told of the changes of many documents over one transport. */

import { Watching } from "./watch.js";

/**
 * A document, and how many operations of it are settled.
 * @typedef {{doc: number, rev: number}} Settled
 */

/**
 * The `rev`s of the settled operations of many documents, each above the one before of its document: one of each at first, and
 * one after each of its changes, or after some at once. `"all"` are those that were edited, and each new one.
 *
 * It is an asynchronous iterator over one transport, and ends and fails as a `Watch` does: whoever looks seldom is given the
 * newest number of each document alone, so that no more than these are kept.
 * @extends {Watching<Settled>}
 */
export class WatchMany extends Watching {
  /**
   * @param {() => import("./wire.js").Transport | Promise<import("./wire.js").Transport>} begin a transport over which nothing was
   *   asked so far
   * @param {Iterable<number> | "all"} documents
   * @param {import("./watch.js").Options} options
   */
  constructor(begin, documents, options = {}) {
    super(begin, { op: "watch", docs: documents === "all" ? documents : [...new Set(documents)] }, (doc, rev) => ({ doc, rev }), options);
  }
}
