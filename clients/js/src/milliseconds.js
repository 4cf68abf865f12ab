/** Numbers of milliseconds, as a caller gives them, and waits that are as long as they say. */

/** A timer of more would end at once. */
export const LONGEST = 2 ** 31 - 1;

/** What null means. */
const MEANS = { patience: "for no limit", timeout: "for no limit", retry: "to end with the connection" };

/**
 * Refuses what is no time: each has to be a number above 0, infinity too, or null, or not given.
 * @param {{[name in keyof MEANS]?: unknown}} times
 */
export function check(times) {
  for (const [name, means] of Object.entries(MEANS)) checkOne(name, times[/** @type {keyof MEANS} */ (name)], means);
}

/**
 * @param {string} name
 * @param {unknown} given
 * @param {string} means
 */
function checkOne(name, given, means) {
  if (given === undefined || given === null) return;
  if (typeof given !== "number") {
    throw new TypeError(`${name} is ${shown(given)}; it has to be a number of milliseconds, or null ${means}`);
  }
  if (!(given > 0)) throw new RangeError(`${name} is ${given}; it has to be more than 0 milliseconds, or null ${means}`);
}

/**
 * Acts after a time, which may be longer than a timer can be. Gives what calls it off.
 * @param {number} time milliseconds
 * @param {() => void} act
 */
export function after(time, act) {
  /** @type {ReturnType<typeof setTimeout>} */
  let timer;
  /** @param {number} left */
  const wait = (left) => {
    timer = setTimeout(() => (left > LONGEST ? wait(left - LONGEST) : act()), Math.min(left, LONGEST));
  };
  wait(time);
  return () => clearTimeout(timer);
}

/** @param {unknown} value */
function shown(value) {
  return typeof value === "string" ? JSON.stringify(value) : String(value);
}
