/**
 * A transport that knows why it ended, if it came to nothing.
 * @typedef {import("./wire.js").Transport & {abandon: () => void, fault: string | undefined}} Way
 */
/**
 * `patience`: milliseconds until somebody who listens has to have answered first, or null for no limit; `timeout`: those
 * without a byte while an answer is due, or null for no limit; `retry`: those without an answer for which a daemon is looked
 * for, 10,000 unless it is given, or null to send nothing twice and give edits no token, as where another file may come to
 * the port. Each may be infinite. `signal` ends the connecting, if it is aborted before there is a session.
 * @typedef {{patience?: number | null, timeout?: number | null, retry?: number | null, signal?: AbortSignal}} Options
 */
/**
 * A session over a connection that is begun so, and over others where it ends.
 * @param {() => Way} begin
 * @param {(fault: string | undefined) => string} nobody says that there is no daemon
 * @param {Options} options
 */
export function connectBy(begin: () => Way, nobody: (fault: string | undefined) => string, { patience, timeout, retry, signal }: Options): Promise<Session>;
/**
 * A transport that knows why it ended, if it came to nothing.
 */
export type Way = import("./wire.js").Transport & {
    abandon: () => void;
    fault: string | undefined;
};
/**
 * `patience`: milliseconds until somebody who listens has to have answered first, or null for no limit; `timeout`: those
 * without a byte while an answer is due, or null for no limit; `retry`: those without an answer for which a daemon is looked
 * for, 10,000 unless it is given, or null to send nothing twice and give edits no token, as where another file may come to
 * the port. Each may be infinite. `signal` ends the connecting, if it is aborted before there is a session.
 */
export type Options = {
    patience?: number | null;
    timeout?: number | null;
    retry?: number | null;
    signal?: AbortSignal;
};
import { Session } from "./session.js";
