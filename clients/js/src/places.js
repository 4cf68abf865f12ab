/**
 * Two ways to count: the program counts a text in characters (Unicode scalar values), a place being the number of
 * them before it; JavaScript's strings count UTF-16 units, so a character such as "😀" has two.
 */

const PAIRS = /[\ud800-\udbff][\udc00-\udfff]/g;

/** Half of a pair of surrogates, which is no character. */
export const HALF = /\p{Surrogate}/u;

/**
 * The place of an index of a text.
 * @param {string} text
 * @param {number} index
 * @returns {number}
 */
export function toPlace(text, index) {
  let place = 0;
  let at = 0;
  while (at < index && at < text.length) {
    at += unitsAt(text, at);
    place += 1;
  }
  if (at !== index) throw new RangeError(`${index} is no index between characters of the text`);
  return place;
}

/**
 * The index of a place of a text.
 * @param {string} text
 * @param {number} place
 * @returns {number}
 */
export function toIndex(text, place) {
  const { index, left } = indexAfter(text, place);
  if (left !== 0) throw new RangeError(`${place} is no place of the text`);
  return index;
}

/**
 * The index behind the first characters of a text, and how many of them the text hasn't.
 * @param {string} text
 * @param {number} count
 */
export function indexAfter(text, count) {
  let index = 0;
  let left = count;
  while (left > 0 && index < text.length) {
    index += unitsAt(text, index);
    left -= 1;
  }
  return { index, left };
}

/**
 * How many units the character at an index has.
 * @param {string} text
 * @param {number} index
 */
function unitsAt(text, index) {
  return /** @type {number} */ (text.codePointAt(index)) > 0xffff ? 2 : 1;
}

/**
 * How many characters a text has.
 * @param {string} text
 */
export function lengthOf(text) {
  return text.length - (text.match(PAIRS)?.length ?? 0);
}

/**
 * Whether an index is in the midst of a character of a text.
 * @param {string} text
 * @param {number} index
 */
export function isInside(text, index) {
  return index > 0 && Number(text.codePointAt(index - 1)) > 0xffff;
}
