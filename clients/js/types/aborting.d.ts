/** Calls that are given up by an `AbortSignal`. */
/**
 * What every call that asks may be given: once the signal is aborted, the call rejects with the signal's reason.
 * @typedef {{signal?: AbortSignal}} Abortable
 */
/**
 * Refuses what is no signal, before anything is sent.
 * @param {AbortSignal | null} [signal]
 */
export function needSignal(signal?: AbortSignal | null | undefined): void;
/**
 * Throws the reason of a signal that is aborted already.
 * @param {AbortSignal | null} [signal]
 */
export function throwIfAborted(signal?: AbortSignal | null | undefined): void;
/**
 * What is promised, or the signal's reason as soon as that is aborted, after `giveUp`. A signal may outlast many calls: each
 * lets go of it.
 * @template T
 * @param {AbortSignal | undefined} signal
 * @param {Promise<T>} promised
 * @param {() => void} giveUp
 * @returns {Promise<T>}
 */
export function untilAborted<T>(signal: AbortSignal | undefined, promised: Promise<T>, giveUp: () => void): Promise<T>;
/**
 * What a call was given: each by its place, or by its name in the options. The options are the last argument, also if some
 * before it are left out.
 * @param {Record<string, unknown>} placed
 * @param {object} [options]
 * @returns {any}
 */
export function givenOf(placed: Record<string, unknown>, options?: object | undefined): any;
/**
 * What every call that asks may be given: once the signal is aborted, the call rejects with the signal's reason.
 */
export type Abortable = {
    signal?: AbortSignal;
};
