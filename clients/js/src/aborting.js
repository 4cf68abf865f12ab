/** Calls that are given up by an `AbortSignal`. */

/**
 * What every call that asks may be given: once the signal is aborted, the call rejects with the signal's reason.
 * @typedef {{signal?: AbortSignal}} Abortable
 */

/**
 * Refuses what is no signal, before anything is sent.
 * @param {AbortSignal | null} [signal]
 */
export function needSignal(signal) {
  if (signal === undefined || signal === null || typeof signal.throwIfAborted === "function") return;
  throw new TypeError("`signal` has to be an AbortSignal, as `controller.signal` of an AbortController is");
}

/**
 * Throws the reason of a signal that is aborted already.
 * @param {AbortSignal | null} [signal]
 */
export function throwIfAborted(signal) {
  needSignal(signal);
  signal?.throwIfAborted();
}

/**
 * What is promised, or the signal's reason as soon as that is aborted, after `giveUp`. A signal may outlast many calls: each
 * lets go of it.
 * @template T
 * @param {AbortSignal | undefined} signal
 * @param {Promise<T>} promised
 * @param {() => void} giveUp
 * @returns {Promise<T>}
 */
export function untilAborted(signal, promised, giveUp) {
  if (!signal) return promised;
  let letGo = () => {};
  const aborted = new Promise((/** @type {(value: never) => void} */ _, reject) => {
    const abort = () => {
      giveUp();
      reject(signal.reason);
    };
    signal.addEventListener("abort", abort);
    letGo = () => signal.removeEventListener("abort", abort);
  });
  return Promise.race([promised, aborted]).finally(() => letGo());
}

/**
 * What a call was given: each by its place, or by its name in the options. The options are the last argument, also if some
 * before it are left out.
 * @param {Record<string, unknown>} placed
 * @param {object} [options]
 * @returns {any}
 */
export function givenOf(placed, options) {
  /** @type {Record<string, unknown>} */
  const given = {};
  for (const [name, value] of Object.entries(placed)) {
    if (areOptions(value)) return { ...given, ...value };
    given[name] = value;
  }
  return { ...given, ...options };
}

/**
 * Anything else is refused as it is.
 * @param {unknown} value
 * @returns {value is object}
 */
function areOptions(value) {
  return typeof value === "object" && value !== null && !Array.isArray(value);
}
