// ProseMirror's editors for random histories: how one begins, what somebody does in it by chance, and what it shows.

import { charactersOf, placeOf, positionOf } from "./reader.mjs";
import { editorOver, plainSchema, prosemirror, seen, someMarks } from "./support.mjs";

const modules = prosemirror();
const { TextSelection } = modules.state;
const schema = plainSchema(modules.model);
const MARKS = someMarks(schema);

/** The keys of all marks that are given. */
export const KEYS = ["strong", "em", "link", ...MARKS.flatMap(({ attrs }) => attrs.id ?? [])];

export function open(store, sessionOptions) {
  return editorOver(store, modules, schema, {}, sessionOptions);
}

/** What a chance makes of the state. What is drawn depends on how much is shown, not on which letters these are. */
function drawn({ doc, tr, selection }, below, letter) {
  const characters = charactersOf(doc);
  const place = () => below(characters.length + 1);
  const [from, to] = [place(), place()].sort((one, other) => one - other);
  const at = (count) => positionOf(characters, count);
  const mark = MARKS[below(MARKS.length)];
  const marks = below(3) === 0 ? [mark] : undefined;
  switch (below(12)) {
    case 0:
      return tr.split(selection.from);
    case 1:
      return tr.split(at(from));
    case 2:
      return tr.delete(at(from), at(Math.min(to, from + 6)));
    case 3:
      return tr.addMark(at(from), at(to), mark);
    case 4:
      return tr.removeMark(at(from), at(to), mark);
    case 5:
      return tr.setSelection(TextSelection.create(doc, at(from)));
    case 6:
      return tr.setSelection(TextSelection.create(doc, at(to), at(from)));
    case 7:
      return tr.setSelection(TextSelection.create(doc, at(from), at(to)));
    case 8:
      return tr.insert(at(from), schema.text(letter() + letter() + letter(), marks));
    case 9:
      return tr.insert(at(from), schema.text(letter(), marks));
    default:
      return tr.insertText(letter());
  }
}

/** Does one thing. Gives the letters that were marked, and how, unless it wasn't taken: one that leaves what can't be held isn't applied. */
export function act({ view }, below, letter) {
  const { state } = view;
  const transaction = drawn(state, below, letter);
  view.dispatch(transaction);
  if (view.state === state) return undefined;
  return transaction.steps.flatMap((step, index) => marked(step, transaction.docs[index]));
}

function marked({ from, to, mark, jsonID }, doc) {
  if (mark === undefined) return [];
  const [key, value] = Object.entries(valuesOf([mark]))[0];
  return [{ key, value: jsonID === "addMark" ? value : undefined, letters: [...doc.textBetween(from, to)] }];
}

/** The values of an editor's marks, by their keys. */
function valuesOf(marks) {
  return Object.fromEntries(marks.map(({ type, attrs }) => (type.name === "comment" ? [attrs.id, true] : [type.name, attrs.href ?? true])));
}

/** The characters, each with the values of its marks by keys, and the selection as places. */
export function look({ view }) {
  const { doc, selection } = view.state;
  const characters = charactersOf(doc);
  const [from, to] = [selection.from, selection.to].map((position) => placeOf(characters, position));
  return { characters: characters.map(({ text, marks }) => ({ text, values: valuesOf(marks) })), from, to };
}

/** The selection, and each character with its marks, in a form that can be compared. */
export function pictured({ view: { state } }) {
  const { anchor, head } = state.selection;
  return { selection: [anchor, head], characters: seen(state.doc) };
}
