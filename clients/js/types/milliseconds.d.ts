/**
 * Refuses what is no time: each has to be a number above 0, infinity too, or null, or not given.
 * @param {{[name in keyof MEANS]?: unknown}} times
 */
export function check(times: {
    patience?: unknown;
    timeout?: unknown;
    retry?: unknown;
}): void;
/**
 * Acts after a time, which may be longer than a timer can be. Gives what calls it off.
 * @param {number} time milliseconds
 * @param {() => void} act
 */
export function after(time: number, act: () => void): () => void;
/** Numbers of milliseconds, as a caller gives them, and waits that are as long as they say. */
/** A timer of more would end at once. */
export const LONGEST: number;
