/** Work that isn't done again for what it was done for last: most of what is shown is the same after each key. */

/**
 * @template G, M
 * @param {(given: G) => M} work
 * @returns {(given: G) => M}
 */
export function remembered(work) {
  let last;
  return (given) => {
    if (last === undefined || last.given !== given) last = { given, made: work(given) };
    return last.made;
  };
}
