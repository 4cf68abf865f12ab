/** What an editor says of its caret, as it is handed on to others. */

/** How many colours the page has for carets. */
const COLOURS = 6;

/** A name is short, without what would turn or hide the text beside it. */
const NAME = /^[^\p{C}]{1,24}$/u;

/**
 * A place that lasts, as a daemon names it, of fewer than 10^14 operations. What a daemon would refuse isn't handed on: it is
 * asked for all places at once.
 */
const ANCHOR = /^(start|end|[ab][1-9]\d{0,13}@(?!0{8}(-0{4}){3}-0{12})[0-9a-f]{8}(-[0-9a-f]{4}){3}-[0-9a-f]{12})$/;

/** The numbers of documents end here. */
const LAST = 2 ** 32 - 1;

/**
 * A caret: whose it is, in which document, and where. What is selected is between `tail` and `head`; without that, both are one
 * place.
 * @typedef {{name: string, colour: number, document: number, head: string, tail: string}} SaidCaret
 */

/**
 * The caret that a message says, with just what belongs to one; or nothing.
 * @param {string} message
 * @returns {SaidCaret | undefined}
 */
export function saidCaret(message) {
  const { name, colour, document, head, tail } = objectIn(message);
  const isCaret = isMatch(NAME, name) && isIn(colour, 0, COLOURS - 1) && isIn(document, 1, LAST) && isMatch(ANCHOR, head) && isMatch(ANCHOR, tail);
  return isCaret ? { name, colour, document, head, tail } : undefined;
}

/** @param {string} message */
function objectIn(message) {
  try {
    return JSON.parse(message) ?? {};
  } catch {
    return {};
  }
}

/**
 * @param {RegExp} form
 * @param {unknown} text
 */
function isMatch(form, text) {
  return typeof text === "string" && form.test(text);
}

/**
 * @param {unknown} number
 * @param {number} first
 * @param {number} last
 */
function isIn(number, first, last) {
  return Number.isInteger(number) && number >= first && number <= last;
}
