// What several tests use.

import assert from "node:assert/strict";
import { mkdtempSync, rmSync } from "node:fs";
import { createRequire } from "node:module";
import { tmpdir } from "node:os";
import { join } from "node:path";
import { fileURLToPath } from "node:url";

import { Ended, Session } from "peritext";
import { bind } from "peritext/prosemirror";

import { charactersOf, placeOf } from "./reader.mjs";

/** A program that answers as peritext does, from memory. */
export const MODEL = fileURLToPath(new URL("program.mjs", import.meta.url));

/** Where Debian has its packages for Node. */
export const LIBRARIES = "/usr/share/nodejs";

/** Runs a test with the name of a file in a folder that is gone afterwards. */
export async function withFile(test) {
  const folder = mkdtempSync(join(tmpdir(), "peritext-"));
  try {
    await test(join(folder, "store"), folder);
  } finally {
    rmSync(folder, { recursive: true });
  }
}

/** ProseMirror's modules, as `prosemirror-state` and so on. */
export const library = createRequire(import.meta.url);

export function prosemirror() {
  return {
    model: library("prosemirror-model"),
    state: library("prosemirror-state"),
    transform: library("prosemirror-transform"),
  };
}

/** A schema of plain paragraphs, and of things that peritext doesn't have. */
export function plainSchema({ Schema }) {
  return new Schema({
    nodes: {
      doc: { content: "(paragraph | heading)+" },
      paragraph: { content: "inline*", marks: "_" },
      heading: { content: "inline*" },
      text: { group: "inline" },
      image: { group: "inline", inline: true },
    },
    marks: {
      link: { attrs: { href: {}, title: { default: null } }, inclusive: false },
      em: {},
      strong: {},
      comment: { attrs: { id: {} }, excludes: "", inclusive: false },
      code: {},
    },
  });
}

/** What the binding needs of an editor's view: a state, and plugins that are told of each transaction. */
export class View {
  #plugins;

  constructor(_, { state }) {
    this.state = state;
    this.#plugins = state.plugins.map((plugin) => plugin.spec.view?.(this));
  }

  dispatch(transaction) {
    const before = this.state;
    this.state = this.state.apply(transaction);
    for (const plugin of this.#plugins) plugin?.update?.(this, before);
  }

  destroy() {
    for (const plugin of this.#plugins) plugin?.destroy?.();
  }
}

/** An editor with a session of its own over a document of a store. */
export async function editorOver(store, modules, schema, options, sessionOptions) {
  const transport = store.session();
  const document = new Session(transport, sessionOptions).document(1);
  const binding = await bind(modules, schema, document, options);
  const state = modules.state.EditorState.create({ doc: binding.doc, plugins: [binding.plugin] });
  return { binding, document, transport, view: new View(null, { state }) };
}

/** Editors, each begun with the options of its session. Where they are cut, the session goes on by itself if `goesOn` says so, and else the binding. */
export function editorsOver(goesOn, open) {
  return Promise.all(goesOn.map(async (bySession) => {
    const editor = { goesOn: bySession };
    const options = bySession ? { again: async () => editor.transport } : {};
    return Object.assign(editor, await open(options));
  }));
}

/** Ends an editor's transport, and has another one ready. Nothing that was under way is answered, and so many lines of it are made. */
export function cut(editor, store, made) {
  const { transport } = editor;
  editor.transport = store.session();
  editor.transport.held = editor.isHeld === true;
  transport.cut(made);
}

/** Has an editor go on over the transport that is ready, unless its session does so by itself. */
export function goOn(editor) {
  if (editor.goesOn) return;
  editor.document = new Session(editor.transport).document(1);
  editor.binding.resume(editor.document).catch(isEnded);
}

export function isEnded(error) {
  assert(error instanceof Ended, error);
}

/** Marks of each kind, of some kinds two. */
export function someMarks(schema) {
  const links = ["u", "v"].map((href) => schema.mark("link", { href }));
  const comments = [7, 8].map((digit) => schema.mark("comment", { id: `00000000-0000-0000-0000-00000000000${digit}` }));
  return [schema.mark("strong"), schema.mark("em"), ...links, ...comments];
}

/** Each character with its marks. ProseMirror has comments on one character in the order in which they came. */
export function seen(doc) {
  return charactersOf(doc).map(({ text, marks }) => [text, ...marks.map((mark) => JSON.stringify(mark)).sort()]);
}

/** Numbers below a limit, the same for a seed (xorshift). */
export function numbers(seed) {
  let state = seed * 2_654_435_761 + 1;
  return (limit) => {
    state ^= state << 13;
    state ^= state >>> 17;
    state ^= state << 5;
    return (state >>> 0) % limit;
  };
}

/** The text with the caret, or both ends of the selection, shown in it. */
export function shown({ state: { doc, selection } }) {
  const characters = charactersOf(doc);
  const texts = characters.map(({ text }) => text);
  const [from, to] = [selection.from, selection.to].map((position) => placeOf(characters, position));
  return `${texts.slice(0, from).join("")}|${from === to ? "" : `${texts.slice(from, to).join("")}|`}${texts.slice(to).join("")}`;
}
