// The CodeMirror binding over a model of the program, with a stand-in for CodeMirror (`codemirror.mjs`).

import assert from "node:assert/strict";
import { test } from "node:test";

import { Ended, STRONG, Session } from "peritext";
import { bind } from "peritext/codemirror";

import * as modules from "./codemirror.mjs";
import { open } from "./codemirror_editor.mjs";
import { Store } from "./fake.mjs";
import { cut, goOn, isEnded } from "./support.mjs";

const { Transaction } = modules.state;

/** An editor over a text that is there, and somebody else. */
async function over(text, options) {
  const store = new Store();
  const somebody = new Session(store.session()).document(1);
  if (text !== "") await somebody.insert(0, text);
  return { store, somebody, ...(await open(store, {}, options)) };
}

/** The text with the caret, or both ends of the selection, shown in it. */
function shown({ state: { doc, selection } }) {
  const text = doc.toString();
  const { from, to } = selection.main;
  return `${text.slice(0, from)}|${from === to ? "" : `${text.slice(from, to)}|`}${text.slice(to)}`;
}

test("a text is read, edited by two, and shown: the first page", async () => {
  const { view, binding, somebody, transport, store } = await over("The quick fox\nruns");
  await somebody.mark(4, 9, STRONG);
  transport.held = true;
  view.dispatch({ changes: { from: 18, insert: " 😀!" } });
  view.dispatch({ changes: { from: 0, to: 4 }, selection: { anchor: 9 } });
  view.dispatch({ changes: [{ from: 0, insert: "q" }, { from: 0, to: 1 }, { from: 2, insert: "t" }] });
  assert.equal(shown(view), "qutick fox|\nruns 😀!");
  await somebody.insert(9, "er");
  transport.release();
  await binding.settled();
  assert.equal(shown(view), "quticker fox|\nruns 😀!");
  assert.equal(await somebody.text(), "quticker fox\nruns 😀!");
  // Marks stay with their text, and what is typed within has them as the program gives them.
  assert.equal((await somebody.spans()).find(({ strong }) => strong).text.includes("ticker"), true);
  assert.deepEqual([binding.waiting, binding.rev], [0, store.document(1).rev]);
});

test("remote changes keep the caret and the selection with their text", async () => {
  const { view, binding, somebody } = await over("The fox");
  const after = async (edit) => {
    await edit;
    await binding.pull();
    return shown(view);
  };
  view.dispatch({ selection: { anchor: 4 } });
  assert.equal(await after(somebody.insert(0, "😀\n")), "😀\nThe |fox");
  assert.equal(await after(somebody.insert(6, "Z")), "😀\nThe |Zfox");
  assert.equal(await after(somebody.delete(2, 4)), "😀\n|Zfox");
  view.dispatch({ selection: { anchor: 7, head: 4 } });
  assert.equal(await after(somebody.insert(6, "2")), "😀\nZ|fox|2");
  assert.equal(await after(somebody.insert(3, "1")), "😀\nZ1|fox|2");
  assert.equal(await after(somebody.mark(0, 3, STRONG)), "😀\nZ1|fox|2");
  assert.equal(await after(somebody.delete(4, 3)), "😀\nZ1|2");
});

test("what others did isn't undone by this editor, and isn't sent again", async () => {
  const { view, binding, somebody, store } = await over("ab");
  const { dispatch } = view;
  const found = [];
  view.dispatch = (transaction) => {
    found.push([transaction.annotation(Transaction.addToHistory), transaction.annotation(Transaction.remote)]);
    dispatch.call(view, transaction);
  };
  await somebody.insert(1, "x");
  const { rev } = store.document(1);
  await binding.pull();
  assert.deepEqual([found, binding.waiting, store.document(1).rev], [[[false, true]], 0, rev]);
});

test("what others did is shown, whatever an extension lets nobody do here", async () => {
  const store = new Store();
  const somebody = new Session(store.session()).document(1);
  const binding = await bind(modules, new Session(store.session()).document(1));
  const { EditorState } = modules.state;
  const locked = EditorState.transactionFilter.of((transaction) => (transaction.docChanged ? [] : transaction));
  const view = new modules.view.EditorView({ state: EditorState.create({ doc: binding.doc, extensions: [binding.extension, locked] }) });
  view.dispatch({ changes: { from: 0, insert: "x" } });
  await somebody.insert(0, "ab");
  await binding.pull();
  assert.deepEqual([view.state.doc.toString(), await somebody.text()], ["ab", "ab"]);
});

test("half a character isn't taken into the text, and halves that come together are a new one", async () => {
  const { view, binding, somebody } = await over("a😀🌕b");
  view.dispatch({ changes: { from: 2, to: 3 } });
  view.dispatch({ changes: { from: 2, insert: "x" } });
  view.dispatch({ changes: { from: 0, insert: "\ud83d" } });
  assert.equal(view.state.doc.toString(), "a😀🌕b");
  view.dispatch({ changes: { from: 2, to: 4 } });
  await binding.settled();
  assert.equal(await somebody.text(), "a\ud83d\udf15b");
  assert.equal(view.state.doc.toString(), "a\ud83d\udf15b");
});

test("a carriage return is a character as any other", async () => {
  const { view, binding, somebody } = await over("a\r\nb");
  assert.equal(view.state.doc.toString(), "a\r\nb");
  view.dispatch({ changes: { from: 4, insert: "c\rd" } });
  await binding.settled();
  await somebody.insert(1, "\r");
  await binding.pull();
  assert.equal(await somebody.text(), "a\r\r\nbc\rd");
  assert.equal(view.state.doc.toString(), "a\r\r\nbc\rd");
});

test("a refusal is told, and what is left is sent again", async () => {
  const errors = [];
  const { view, binding, somebody, transport } = await over("", { onError: (error) => errors.push(error.message) });
  const { send } = transport;
  transport.send = (line) => send.call(transport, line.replace('"insert"', '"sing"'));
  view.dispatch({ changes: { from: 0, insert: "a" } });
  await assert.rejects(binding.settled(), { number: 3 });
  assert.deepEqual(errors, ["3 request: the line is no request of docs/PROTOCOL.md; mend what made it"]);
  transport.send = send;
  view.dispatch({ changes: { from: 1, insert: "b" } });
  await binding.settled();
  assert.equal(await somebody.text(), "ab");
  transport.onEnd();
  await assert.rejects(binding.pull(), Ended);
});

for (const goesOn of [true, false]) {
  test(`an edit whose answer was lost is there once, whether it was made or not: ${goesOn ? "the session" : "the binding"} goes on`, async () => {
    for (const made of [0, 2]) {
      const store = new Store();
      const somebody = new Session(store.session()).document(1);
      await somebody.insert(0, "ab");
      const editor = { goesOn };
      Object.assign(editor, await open(store, goesOn ? { again: async () => editor.transport } : {}));
      const { view, binding } = editor;
      editor.transport.held = true;
      view.dispatch({ changes: { from: 1, insert: "x" } });
      await new Promise(setImmediate);
      view.dispatch({ changes: { from: 2, insert: "y" } });
      cut(editor, store, made);
      goOn(editor);
      await binding.settled().catch(isEnded);
      await binding.settled();
      assert.deepEqual([binding.waiting, await somebody.text(), view.state.doc.toString()], [0, "axyb", "axyb"]);
    }
  });
}

test("an editor that doesn't take what the program has is told of", async () => {
  const { view, binding, somebody } = await over("ab");
  view.dispatch = () => {};
  await somebody.insert(1, "x");
  await assert.rejects(binding.pull(), /the editor didn't take/);
});

test("an editor that is gone is left alone", async () => {
  const { view, binding, transport } = await over("ab");
  transport.held = true;
  view.dispatch({ changes: { from: 1, insert: "x" } });
  await new Promise(setImmediate);
  view.destroy();
  transport.release();
  await binding.settled();
  assert.deepEqual([view.state.doc.toString(), binding.waiting, binding.rev], ["axb", 0, -1]);
});

test("before it is shown nothing is known of it", async () => {
  const store = new Store();
  const binding = await bind(modules, new Session(store.session()).document(1));
  assert.deepEqual([binding.doc, binding.waiting, binding.rev], ["", 0, -1]);
});
