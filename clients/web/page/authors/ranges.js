/** Stretches of a text, each by one writer, in their order and apart; and where they are after a change. */

/**
 * From one position to another one, by the writer that is named.
 * @typedef {{from: number, to: number, by: string}} Range
 */

/**
 * Where stretches are after a change. What was put in is by somebody, or by nobody that is known.
 * @param {readonly Range[]} ranges
 * @param {import("prosemirror-transform").StepMap} map
 * @param {string | undefined} by
 * @returns {Range[]}
 */
export function after(ranges, map, by) {
  const stayed = ranges.flatMap((range) => piecesOf(range, map));
  const added = [];
  if (by !== undefined) map.forEach((_, __, from, to) => from < to && added.push({ from, to, by }));
  return together(stayed, added);
}

/**
 * What stayed of a stretch, where it is now: what is put in inside of it is none of it.
 * @param {Range} range
 * @param {import("prosemirror-transform").StepMap} map
 */
function piecesOf({ from, to, by }, map) {
  const kept = [];
  let first = from;
  map.forEach((start, end) => {
    if (end < first || start >= to) return;
    if (first < start) kept.push({ from: first, to: start });
    first = Math.max(first, end);
  });
  if (first < to) kept.push({ from: first, to });
  return kept.map((piece) => ({ from: map.map(piece.from, 1), to: map.map(piece.to, -1), by }));
}

/**
 * Two lists of stretches as one, which are joined where one writer's meet.
 * @param {readonly Range[]} some
 * @param {readonly Range[]} others that overlap none of them
 * @returns {Range[]}
 */
export function together(some, others) {
  /** @type {Range[]} */
  const joined = [];
  for (const range of [...some, ...others].sort((one, other) => one.from - other.from)) {
    const last = joined.at(-1);
    if (last !== undefined && last.to >= range.from && last.by === range.by) last.to = Math.max(last.to, range.to);
    else joined.push({ ...range });
  }
  return joined;
}

/**
 * What no stretch covers between two positions.
 * @param {readonly Range[]} ranges
 * @param {number} from
 * @param {number} to
 */
export function gapsIn(ranges, from, to) {
  const gaps = [];
  let first = from;
  for (const range of ranges) {
    if (range.to <= first) continue;
    if (range.from >= to) break;
    if (first < range.from) gaps.push({ from: first, to: range.from });
    first = range.to;
  }
  if (first < to) gaps.push({ from: first, to });
  return gaps;
}
