/** A session of a daemon, over connections of any kind. */

import { throwIfAborted } from "./aborting.js";
import { after, check } from "./milliseconds.js";
import { Ended, NoDaemon } from "./refusals.js";
import { Session } from "./session.js";

/** Milliseconds until somebody who listens has to answer. */
const PATIENCE = 10_000;

/**
 * A transport that knows why it ended, if it came to nothing.
 * @typedef {import("./wire.js").Transport & {abandon: () => void, fault: string | undefined}} Way
 */

/**
 * `patience`: milliseconds until somebody who listens has to have answered first, or null for no limit; `timeout`: those
 * without a byte while an answer is due, or null for no limit; `retry`: those without an answer for which a daemon is looked
 * for, 10,000 unless it is given, or null to send nothing twice and give edits no token, as where another file may come to
 * the port. Each may be infinite. `signal` ends the connecting, if it is aborted before there is a session.
 * @typedef {{patience?: number | null, timeout?: number | null, retry?: number | null, signal?: AbortSignal}} Options
 */

/**
 * A session over a connection that is begun so, and over others where it ends.
 * @param {() => Way} begin
 * @param {(fault: string | undefined) => string} nobody says that there is no daemon
 * @param {Options} options
 */
export async function connectBy(begin, nobody, { patience = PATIENCE, timeout, retry, signal }) {
  // Before there is a connection: it would keep a place.
  check({ patience, timeout, retry });
  throwIfAborted(signal);
  /** @param {AbortSignal} [ending] */
  const again = (ending) => placed(begin(), nobody, { patience: patience ?? Infinity, timeout, signal: ending });
  // The signal is for this connection alone: the session may go on over others.
  return new Session(await again(signal), { timeout, again: () => again(), retry });
}

/**
 * A connection for which the daemon has a place.
 * @param {Way} begun
 * @param {(fault: string | undefined) => string} nobody
 * @param {Options & {patience: number}} options
 */
async function placed(begun, nobody, { patience, timeout, signal }) {
  const callOff = after(patience, () => begun.abandon());
  try {
    // A daemon without a place for this session says so in place of the answer.
    await new Session(begun, { timeout }).send({ op: "status" }, { signal });
  } catch (error) {
    begun.abandon();
    throw error instanceof Ended ? new NoDaemon(nobody(begun.fault)) : error;
  } finally {
    callOff();
  }
  return begun;
}
