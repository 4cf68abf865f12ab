// Editors of each kind at once over a daemon of the real program, which PERITEXT names: they come to show what it has.

import assert from "node:assert/strict";
import { test } from "node:test";
import { setTimeout as pause } from "node:timers/promises";

import { connect, watch } from "peritext";
import { bind as bindText } from "peritext/codemirror";
import { bind as bindPages } from "peritext/prosemirror";
import { bind as bindContents } from "peritext/quill";

import * as codemirror from "./codemirror.mjs";
import * as texts from "./codemirror_editor.mjs";
import * as pages from "./prose_editor.mjs";
import { Proxy } from "./proxy.mjs";
import { Quill } from "./quill.mjs";
import * as contents from "./quill_editor.mjs";
import { start, withDaemon } from "./served.mjs";
import { View, numbers, plainSchema, prosemirror } from "./support.mjs";
import { soon } from "./talk.mjs";

const modules = prosemirror();

/** An editor of each kind over a document. */
const KINDS = [
  async (document) => {
    const quill = new Quill();
    quill.setSelection(0);
    return { kind: contents, quill, binding: await bindContents(quill, document, { formats: contents.FORMATS }) };
  },
  async (document) => {
    const binding = await bindPages(modules, plainSchema(modules.model), document);
    const state = modules.state.EditorState.create({ doc: binding.doc, plugins: [binding.plugin] });
    return { kind: pages, view: new View(null, { state }), binding };
  },
  async (document) => {
    const binding = await bindText(codemirror, document);
    const state = codemirror.state.EditorState.create({ doc: binding.doc, extensions: [binding.extension] });
    return { kind: texts, view: new codemirror.view.EditorView({ state }), binding };
  },
];

/** An editor that follows its document over a port. */
async function follow(open, port) {
  const session = await connect(port);
  const revs = watch(port, 1);
  // A watch that was never heard isn't begun again.
  await soon(revs.next());
  const editor = { ...(await open(session.document(1))), session, revs };
  return { ...editor, following: editor.binding.follow(revs) };
}

/** The characters of spans, each with the values of its marks by keys. A break shows none. */
function charactersOf(spans) {
  return spans.flatMap(({ text, comments = [], ...marks }) => {
    const values = { ...marks, ...Object.fromEntries(comments.map((id) => [id, true])) };
    return [...text].map((character) => ({ text: character, values: character === "\n" ? {} : values }));
  });
}

function assertShown({ kind, ...editor }, spans) {
  const wanted = charactersOf(spans);
  const { characters } = kind.look(editor);
  if (kind === texts) assert.equal(characters.map(({ text }) => text).join(""), wanted.map(({ text }) => text).join(""));
  else assert.deepEqual(characters, wanted);
}

/** Plays so many turns over a port, in which `happen` may do something else. Gives how many operations the document has then. */
async function play(seed, port, turns, happen) {
  const below = numbers(seed);
  const editors = await Promise.all([...KINDS, KINDS[0]].map((open) => follow(open, port)));
  let letters = 0;
  const letter = () => String.fromCodePoint((letters % 5 === 4 ? 0x1f300 : 0x4e00) + (letters += 1));
  for (let turn = 0; turn < turns; turn += 1) {
    const { kind, ...editor } = editors[below(editors.length)];
    kind.act(editor, below, letter);
    if (below(3) === 0) await pause(below(4));
    await happen(turn);
  }
  for (const { binding } of editors) await soon(binding.settled());
  for (const { binding } of editors) await soon(binding.pull());
  const spans = await editors[0].session.document(1).spans();
  for (const editor of editors) assertShown(editor, spans);
  const { rev } = editors[0].binding;
  for (const { revs, following, session } of editors) {
    revs.close();
    await soon(following);
    await session.close();
  }
  return rev;
}

test("they show what the program has", () =>
  withDaemon(async ({ port }) => {
    assert((await play(1, port, 120, () => {})) > 40);
  }));

test("so they do if connections are cut, and if the daemon is killed and started again", () =>
  withDaemon(async (daemon, file) => {
    const proxy = new Proxy(daemon.port);
    let again;
    try {
      const rev = await play(2, await proxy.listen(), 120, async (turn) => {
        if (turn % 15 === 7) proxy.cut();
        if (turn !== 60) return;
        await daemon.kill();
        again = await start(file, daemon.port);
      });
      assert(rev > 40);
    } finally {
      proxy.close();
      await again?.kill();
    }
  }));
