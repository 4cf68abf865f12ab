/**
 * The names of the texts, as document 1 has them: a line for each, `number name`. Of several lines with one number the last one
 * counts. Any other line is left out, and left as it is.
 */

/** The document that holds the names, and the one that holds what the comments say (`remarks.js`). */
export const NAMES = 1;
export const REMARKS = 2;

/** The text that is there before anybody made one, and how it is called until it has a name. */
export const FIRST = 3;
const FIRST_NAME = "First text";

/** The numbers that documents may have, and how many texts a replica can hold beside both lists. */
const LAST = 2 ** 32 - 1;
export const MOST = 1_022;

/** How long a name may be. */
export const LONGEST = 60;

const LINE = /^([1-9]\d{0,9}) (.+)$/su;

/** @typedef {{number: number, name: string}} NamedText */

/**
 * What a line says, or nothing.
 * @param {string} line
 * @returns {NamedText | undefined}
 */
export function namedIn(line) {
  const [, digits, words] = LINE.exec(line) ?? [];
  const number = Number(digits);
  const name = nameOf(words ?? "");
  return number >= FIRST && number <= LAST && name !== "" ? { number, name } : undefined;
}

/** @param {NamedText} text */
export function lineOf({ number, name }) {
  return `${number} ${name}`;
}

/**
 * What somebody typed as a name: on one line, with nothing that hides or turns what stands beside it.
 * @param {string} typed
 */
export function nameOf(typed) {
  const words = typed.replace(/(?!\u200d)\p{C}/gu, " ").replace(/\s+/gu, " ").trim();
  return [...words].slice(0, LONGEST).join("").trim();
}

/**
 * All texts: the one that is always there, and the others in the order of their lines.
 * @param {readonly string[]} lines
 * @returns {NamedText[]}
 */
export function textsIn(lines) {
  /** @type {Map<number, string>} */
  const names = new Map();
  for (const line of lines) {
    const named = namedIn(line);
    if (named === undefined) continue;
    // So that it stands where the line does that counts.
    names.delete(named.number);
    names.set(named.number, named.name);
  }
  const first = { number: FIRST, name: names.get(FIRST) ?? FIRST_NAME };
  names.delete(FIRST);
  return [first, ...[...names].map(([number, name]) => ({ number, name }))];
}

/**
 * The same texts with names of which no two are alike: a further one of a name has a number after it. Two sides that are parted
 * may give one name to two texts.
 * @param {readonly NamedText[]} texts
 */
export function toldApart(texts) {
  const taken = new Set(texts.map(({ name }) => name));
  const seen = new Set();
  return texts.map((text) => {
    if (!seen.has(text.name)) {
      seen.add(text.name);
      return text;
    }
    let count = 2;
    while (taken.has(`${text.name} (${count})`)) count += 1;
    const name = `${text.name} (${count})`;
    taken.add(name);
    return { ...text, name };
  });
}

/**
 * A number for a new text. It is drawn, since two sides that are parted must not take the same one.
 * @param {readonly NamedText[]} texts
 */
export function newNumber(texts) {
  for (;;) {
    const [drawn] = crypto.getRandomValues(new Uint32Array(1));
    if (drawn > FIRST && !texts.some(({ number }) => number === drawn)) return drawn;
  }
}
