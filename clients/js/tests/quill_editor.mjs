// Quill's editors for random histories: how one begins, what somebody does in it by chance, and what it shows.

import { Session } from "peritext";
import { bind } from "peritext/quill";

import { Quill } from "./quill.mjs";

export const FORMATS = ["bold", "italic", "link", "comments"];
export const COMMENTS = [7, 8].map((digit) => `00000000-0000-0000-0000-00000000000${digit}`);
const MARKS = [["strong", true], ["em", true], ["link", "u"], ["link", "v"], ...COMMENTS.map((id) => [id, true])];
const NAMES = { strong: "bold", em: "italic", link: "link" };

/** The keys of all marks that are given. */
export const KEYS = ["strong", "em", "link", ...COMMENTS];

/** An editor with a session of its own over a document of a store. */
export async function open(store, sessionOptions, options = {}) {
  const transport = store.session();
  const document = new Session(transport, sessionOptions).document(1);
  const quill = new Quill();
  quill.setSelection(0);
  const binding = await bind(quill, document, { formats: FORMATS, ...options });
  return { binding, document, transport, quill };
}

/** Each character of the text, with its attributes and where it begins. */
function charactersOf(quill) {
  let index = 0;
  const all = quill.getContents().ops.flatMap(({ insert, attributes = {} }) => [...insert].map((text) => ({ text, attributes })));
  return all.slice(0, -1).map((character) => {
    const at = index;
    index += character.text.length;
    return { ...character, index: at };
  });
}

function placeOf(characters, index) {
  return characters.filter((character) => character.index < index).length;
}

/** The attributes with a mark, or without it. */
function withMark(attributes, [key, value], isGiven) {
  if (key in NAMES) return { ...attributes, [NAMES[key]]: isGiven ? value : null };
  const others = (attributes.comments ?? "").split(" ").filter((id) => id !== "" && id !== key);
  return { ...attributes, comments: (isGiven ? [...others, key].sort() : others).join(" ") || null };
}

/** The attribute that a mark is of. */
function nameOf([key]) {
  return NAMES[key] ?? "comments";
}

/** The Delta that gives some characters a mark, or takes it away. */
function marking(characters, from, to, mark, isGiven) {
  const name = nameOf(mark);
  const steps = characters.slice(from, to).map(({ text, attributes }) => {
    return { retain: text.length, attributes: { [name]: withMark(attributes, mark, isGiven)[name] } };
  });
  return [{ retain: characters[from]?.index ?? 0 }, ...joined(steps)];
}

/** One for those that go on with the same attributes, as an editor tells them. */
function joined(steps) {
  const found = [];
  for (const step of steps) {
    const last = found[found.length - 1];
    if (last !== undefined && JSON.stringify(last.attributes) === JSON.stringify(step.attributes)) last.retain += step.retain;
    else found.push(step);
  }
  return found;
}

/** A break becomes one of a heading; what is none is left alone. */
function headingAt({ text } = { text: "\n" }) {
  return text === "\n" ? [{ retain: 1, attributes: { header: 1 } }] : [];
}

/** Does one thing. Gives the letters that were marked, and how. What is drawn depends on how much is shown, not on which letters these are. */
export function act({ quill }, below, letter) {
  const characters = charactersOf(quill);
  const place = () => below(characters.length + 1);
  const [from, to] = [place(), place()].sort((one, other) => one - other);
  const at = (count) => characters[count]?.index ?? quill.getLength() - 1;
  const mark = MARKS[below(MARKS.length)];
  const marks = below(3) === 0 ? withMark({}, mark, true) : undefined;
  const change = (...ops) => quill.updateContents({ ops }, ["user", "user", "api", "silent"][below(4)]);
  const stretch = (isGiven) => {
    // From a letter to a letter: the plain model knows a stretch by these.
    const places = [...characters.keys()].slice(from, to).filter((index) => characters[index].text !== "\n");
    if (places.length === 0) return [];
    change(...marking(characters, places[0], places[places.length - 1] + 1, mark, isGiven));
    return [{ key: mark[0], value: isGiven ? mark[1] : undefined, letters: places.map((index) => characters[index].text) }];
  };
  const { index, length } = quill.getSelection();
  switch (below(12)) {
    case 0:
      change({ retain: index }, { insert: "\n" });
      return [];
    case 1:
      change({ retain: at(from) }, { insert: "\n" });
      return [];
    case 2:
      // The last break, too: that comes back.
      change({ retain: at(from) }, { delete: at(Math.min(to, from + 6)) - at(from) + (below(5) === 0 && to === characters.length && to <= from + 6 ? 1 : 0) });
      return [];
    case 3:
      return stretch(true);
    case 4:
      return stretch(false);
    case 5:
      quill.setSelection(at(from));
      return [];
    case 6:
    case 7:
      quill.setSelection(at(from), at(to) - at(from));
      return [];
    case 8:
      change({ retain: at(from) }, { insert: letter() + letter() + letter(), attributes: marks });
      return [];
    case 9:
      // What can't be held beside it is taken out again.
      change({ retain: at(from) }, { insert: letter(), attributes: marks }, ...[[], [], [{ insert: { image: "u" } }], headingAt(characters[from])][below(4)]);
      return [];
    default: {
      // It is typed in the place of the selection, with the formats of what is before it.
      const { text, attributes } = characters[placeOf(characters, index) - 1] ?? {};
      const typed = letter();
      change({ retain: index }, { insert: typed, attributes: text === "\n" ? undefined : attributes }, { delete: length });
      quill.setSelection(index + typed.length);
      return [];
    }
  }
}

/** The values of attributes, by the keys of marks. */
function valuesOf({ bold, italic, link, comments = "" }) {
  const ids = comments.split(" ").filter((id) => id !== "");
  return { ...(bold && { strong: true }), ...(italic && { em: true }), ...(link && { link }), ...Object.fromEntries(ids.map((id) => [id, true])) };
}

/** The characters, each with the values of its marks by keys, and the selection as places. */
export function look({ quill }) {
  const characters = charactersOf(quill);
  const { index, length } = quill.getSelection();
  const [from, to] = [index, index + length].map((end) => placeOf(characters, end));
  return { characters: characters.map(({ text, attributes }) => ({ text, values: valuesOf(attributes) })), from, to };
}

/** The selection, and each character with its marks, in a form that can be compared. */
export function pictured({ quill }) {
  const { index, length } = quill.getSelection();
  return { selection: [index, length], characters: charactersOf(quill).map(({ text, attributes }) => [text, JSON.stringify(Object.entries(attributes).sort())]) };
}
