/** Edits that aren't answered yet, each with a token of its own. */

import { linesOf } from "../action.js";
import { newToken } from "../again.js";
import { crossed } from "./crossing.js";
import { requestOf, together } from "./edits.js";
import { isPlain } from "./steps.js";

/**
 * @typedef {import("./edits.js").Edit} Edit
 * @typedef {import("./steps.js").Step} Step
 * @typedef {{edit: Edit, token: string}} Pending
 */

/**
 * New edits. However often one of them is sent, it is made once.
 * @param {readonly Edit[]} edits
 * @returns {Pending[]}
 */
export function pendingOf(edits) {
  return edits.map((edit) => ({ edit, token: newToken() }));
}

/**
 * What is pending behind further edits: what is typed on becomes one edit with what waits before it. The first of them may
 * be on their way, and stay as they are.
 * @param {readonly Pending[]} pending
 * @param {readonly Edit[]} edits
 * @param {number} sent how many
 * @returns {Pending[]}
 */
export function withEdits(pending, edits, sent = 1) {
  const result = [...pending];
  for (const edit of edits) {
    const last = result.length > sent ? result[result.length - 1] : undefined;
    const both = together(last?.edit, edit);
    if (last !== undefined && both !== undefined) result[result.length - 1] = { edit: both, token: last.token };
    else result.push(...pendingOf([edit]));
  }
  return result;
}

/**
 * How many of the first go in one line.
 * @param {readonly Pending[]} pending
 */
export function fitting(pending) {
  const [line] = linesOf(requestsOf(pending), true);
  return line.length;
}

/** @param {readonly Pending[]} pending */
function* requestsOf(pending) {
  for (const { edit } of pending) yield { edit: requestOf(edit) };
}

/**
 * The fields of the request that makes edits at once.
 * @param {readonly Pending[]} pending
 * @returns {Record<string, unknown>}
 */
export function lineOf(pending) {
  const edits = pending.map(({ edit }) => requestOf(edit));
  const [{ token }] = pending;
  return edits.length === 1 ? { ...edits[0], token } : { op: "edits", edits, token };
}

/**
 * What is pending as it is behind others' steps, and the steps as they are behind it.
 * @param {readonly Pending[]} pending
 * @param {readonly Step[]} steps
 * @returns {{pending: Pending[], steps: readonly Step[]}}
 */
export function behindOthers(pending, steps) {
  if (steps.every(isPlain)) return { pending: [...pending], steps: [] };
  /** @type {Pending[]} */
  const result = [];
  let left = steps;
  for (const it of pending) {
    let parts = [it.edit];
    ({ edits: parts, steps: left } = crossed(it.edit, left));
    // In parts it is several edits: the first one keeps the token.
    if (parts.length > 0) result.push({ edit: parts[0], token: it.token }, ...pendingOf(parts.slice(1)));
  }
  return { pending: result, steps: left };
}

/**
 * How many characters of the text, as it was or as it came to be, edits take away or mark.
 * @param {readonly Pending[]} pending
 */
export function reachOf(pending) {
  return pending.reduce((sum, { edit }) => sum + (edit.op === "delete" ? edit.count : edit.op === "mark" ? edit.to - edit.from : 0), 0);
}
