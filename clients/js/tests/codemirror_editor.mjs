// CodeMirror's editors for random histories: how one begins, what somebody does in it by chance, and what it shows.

import { Session } from "peritext";
import { bind } from "peritext/codemirror";

import * as modules from "./codemirror.mjs";

/** It shows no marks. */
export const KEYS = [];

/** An editor with a session of its own over a document of a store. */
export async function open(store, sessionOptions, options = {}) {
  const transport = store.session();
  const document = new Session(transport, sessionOptions).document(1);
  const binding = await bind(modules, document, options);
  const state = modules.state.EditorState.create({ doc: binding.doc, extensions: [binding.extension] });
  return { binding, document, transport, view: new modules.view.EditorView({ state }) };
}

/** Does one thing. What is drawn depends on how much is shown, not on which letters these are. */
export function act({ view }, below, letter) {
  const { doc, selection } = view.state;
  const characters = [...doc.toString()];
  const place = () => below(characters.length + 1);
  const [from, to] = [place(), place()].sort((one, other) => one - other);
  const at = (count) => characters.slice(0, count).join("").length;
  const { from: start, to: end } = selection.main;
  switch (below(10)) {
    case 0:
      view.dispatch({ changes: { from: start, insert: "\n" } });
      break;
    case 1:
      view.dispatch({ changes: { from: at(from), insert: "\n" } });
      break;
    case 2:
      view.dispatch({ changes: { from: at(from), to: at(Math.min(to, from + 6)) } });
      break;
    case 3:
      view.dispatch({ selection: { anchor: at(from) } });
      break;
    case 4:
      view.dispatch({ selection: { anchor: at(to), head: at(from) } });
      break;
    case 5:
      view.dispatch({ selection: { anchor: at(from), head: at(to) } });
      break;
    case 6:
      // Several at once, as with several carets.
      view.dispatch({ changes: [{ from: at(from), insert: letter() + letter() }, { from: at(to), to: at(to + 1), insert: letter() }] });
      break;
    default: {
      const typed = letter();
      view.dispatch({ changes: { from: start, to: end, insert: typed }, selection: { anchor: start + typed.length } });
    }
  }
  return [];
}

/** The characters, and the selection as places. */
export function look({ view }) {
  const { doc, selection } = view.state;
  const text = doc.toString();
  const [from, to] = [selection.main.from, selection.main.to].map((index) => [...text.slice(0, index)].length);
  return { characters: [...text].map((character) => ({ text: character, values: {} })), from, to };
}

/** The selection, and the characters, in a form that can be compared. */
export function pictured({ view }) {
  const { doc, selection } = view.state;
  return { selection: [selection.main.anchor, selection.main.head], characters: [...doc.toString()].map((text) => [text]) };
}
