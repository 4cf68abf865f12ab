// A binding that goes on over another session, where the first one has ended.

import assert from "node:assert/strict";
import { test } from "node:test";

import { Ended, Session } from "peritext";
import { bind } from "peritext/prosemirror";

import { Store } from "./fake.mjs";
import { View, editorOver, plainSchema, prosemirror } from "./support.mjs";

const modules = prosemirror();
const schema = plainSchema(modules.model);
const NEVER = 2 ** 32 - 1;

/** An editor over a text, in which it makes an edit first where `first` says so. What it sends then isn't answered; what is under way is made where `made` says so, and then the session ends. */
async function cutOff(text, act, { made, first }) {
  const store = new Store();
  const document = new Session(store.session()).document(1);
  await document.insert(0, text);
  const errors = [];
  const { view, binding, transport } = await editorOver(store, modules, schema, { onError: (error) => errors.push(error) });
  if (first !== undefined) view.dispatch(first(view.state.tr));
  await binding.settled();
  const sent = [];
  transport.send = (line) => sent.push(line);
  view.dispatch(act(view.state.tr));
  await turn();
  if (made) for (const line of sent) store.answer(line);
  transport.onEnd();
  await turn();
  assert(errors[0] instanceof Ended);
  return { store, document, view, binding, errors, lost: JSON.parse(sent[0]) };
}

/** A session of a store, and the lines that it sends. */
function listened(store) {
  const transport = store.session();
  const sent = [];
  const { send } = transport;
  transport.send = (line) => {
    sent.push(JSON.parse(line));
    send.call(transport, line);
  };
  return { document: new Session(transport).document(1), sent };
}

function turn() {
  return new Promise((resolve) => setTimeout(resolve, 5));
}

/** The text in the store once the editor goes on there, which then shows the same. */
async function resumed({ store, document, view, binding }) {
  await binding.resume(new Session(store.session()).document(1));
  await binding.pull();
  const text = await document.text();
  assert.equal(view.state.doc.textBetween(0, view.state.doc.content.size, "\n"), text);
  assert.equal(binding.waiting, 0);
  return text;
}

for (const made of [false, true]) {
  const how = made ? "was made" : "wasn't made";

  test(`an insert that ${how} is there once`, async () => {
    const cut = await cutOff("abab", (tr) => tr.insertText("ab", 3), { made });
    assert.equal(cut.binding.waiting, 1);
    assert.equal(await resumed(cut), "ababab");
  });

  test(`what is typed behind an insert that ${how} is there once`, async () => {
    const cut = await cutOff("ab", (tr) => tr.insertText("x", 2), { made });
    cut.view.dispatch(cut.view.state.tr.insertText("y", 3));
    cut.view.dispatch(cut.view.state.tr.insertText("😀", 4).split(2));
    assert(cut.binding.waiting >= 3);
    assert.equal(await resumed(cut), "a\nxy😀b");
  });

  test(`an insert that ${how} is there once, beside what others did`, async () => {
    const cut = await cutOff("one two", (tr) => tr.insertText("new ", 5), { made });
    await cut.document.insert(0, "other ");
    await cut.document.insert((await cut.document.text()).length, " other");
    assert.equal(await resumed(cut), "other one new two other");
  });

  test(`a deletion that ${how} takes nothing more away`, async () => {
    const cut = await cutOff("aabbaa", (tr) => tr.delete(3, 5), { made });
    await cut.document.insert(0, "b");
    assert.equal(await resumed(cut), "baaaa");
  });

  test(`a mark that ${how} is there`, async () => {
    const cut = await cutOff("abc", (tr) => tr.addMark(1, 3, schema.mark("strong")), { made });
    assert.equal(await resumed(cut), "abc");
    assert.deepEqual(await cut.document.spans(), [{ strong: true, text: "ab" }, { text: "c" }]);
  });

  test(`over a session that goes on by itself, an edit that ${how} is there once`, async () => {
    const store = new Store();
    const transport = store.session();
    const document = new Session(transport, { again: async () => store.session() }).document(1);
    const binding = await bind(modules, schema, document);
    const view = new View(null, { state: modules.state.EditorState.create({ doc: binding.doc, plugins: [binding.plugin] }) });
    transport.send = (line) => made && store.answer(line);
    view.dispatch(view.state.tr.insertText("x", 1));
    await turn();
    const other = new Session(store.session()).document(1);
    await other.insert(0, "y");
    view.dispatch(view.state.tr.insertText("z", 2));
    transport.onEnd();
    await binding.settled();
    assert.equal(binding.waiting, 0);
    assert.equal([...(await other.text())].sort().join(""), "xyz");
    assert.equal(view.state.doc.textContent, await other.text());
  });
}

test("the marks of an insert that was made are put right", async () => {
  const put = (tr) => tr.insert(2, schema.text("x", [schema.mark("em")]));
  const cut = await cutOff("ab", put, { made: true });
  assert.equal(await resumed(cut), "axb");
  assert.deepEqual(await cut.document.spans(), [{ text: "a" }, { em: true, text: "x" }, { text: "b" }]);
});

test("an edit is asked for by its token, before any other one, and names no rev of the connection before", async () => {
  for (const made of [false, true]) {
    const cut = await cutOff("ab", (tr) => tr.insertText("x", 2), { made });
    cut.view.dispatch(cut.view.state.tr.insertText("y", 3));
    const { document, sent } = listened(cut.store);
    await cut.binding.resume(document);
    assert.deepEqual(sent[0], { ...cut.lost, rev: NEVER });
    assert.deepEqual(sent.slice(1, 3).map(({ op }) => op), ["changes", "spans"]);
    assert.equal(await document.text(), "axyb");
  }
});

test("what others typed isn't taken for an edit that wasn't answered", async () => {
  const cut = await cutOff("ab", (tr) => tr.insertText("x", 2), { made: false });
  await cut.document.insert(1, "x");
  assert.equal(await resumed(cut), "axxb");
});

test("an edit that was made is there once, though others took it away", async () => {
  const cut = await cutOff("ab", (tr) => tr.insertText("x", 2), { made: true });
  await cut.document.delete(1, 1);
  assert.equal(await resumed(cut), "ab");
});

test("a long text that was cut into edits is there once", async () => {
  const text = "abcd".repeat(200);
  for (const made of [false, true]) {
    const cut = await cutOff("[]", (tr) => tr.insertText(text, 2), { made });
    assert(cut.binding.waiting > 1);
    assert.equal(await resumed(cut), `[${text}]`);
  }
});

/** The operations and tokens of what is sent where an editor goes on over another file, and the text there. */
async function elsewhere(cut, options) {
  const store = new Store();
  const other = listened(store);
  await other.document.insert(0, "cd");
  other.sent.length = 0;
  await cut.binding.resume(other.document, options);
  const edits = other.sent.filter(({ op, rev }) => op !== "spans" && op !== "changes" && rev !== NEVER);
  assert.equal(cut.binding.waiting, 0);
  return { ...other, edits, text: await other.document.text() };
}

test("at another file, as one sees by an edit that was answered, it is a new edit", async () => {
  const first = (tr) => tr.insertText("!", 3);
  const cut = await cutOff("ab", (tr) => tr.insertText("x", 2), { made: true, first });
  const { sent, edits, text } = await elsewhere(cut);
  assert.deepEqual([sent[0].text, sent[0].rev], ["!", NEVER]);
  assert(sent.every(({ token }) => token !== cut.lost.token));
  assert.deepEqual(edits.map((edit) => edit.text), ["x"]);
  assert.equal([...text].sort().join(""), "cdx");
});

test("at a file that is said to be another one, nothing is asked for", async () => {
  const cut = await cutOff("ab", (tr) => tr.insertText("x", 2), { made: true });
  const { sent, text } = await elsewhere(cut, { retry: false });
  assert.equal(sent[0].op, "spans");
  assert(sent.every(({ token }) => token !== cut.lost.token));
  assert.equal([...text].sort().join(""), "cdx");
});

test("a session that has ended too is no place to go on", async () => {
  const cut = await cutOff("ab", (tr) => tr.insertText("x", 2), { made: false });
  const transport = cut.store.session();
  const session = new Session(transport);
  transport.onEnd();
  await assert.rejects(cut.binding.resume(session.document(1)), Ended);
  assert.equal(await resumed(cut), "axb");
});

test("what is typed while it goes on is sent behind the rest", async () => {
  const cut = await cutOff("ab", (tr) => tr.insertText("x", 2), { made: true });
  const over = cut.binding.resume(new Session(cut.store.session()).document(1));
  cut.view.dispatch(cut.view.state.tr.insertText("y", 3));
  await over;
  assert.equal(await resumed(cut), "axyb");
});

test("what was never sent isn't taken for what another typed", async () => {
  const store = new Store();
  const document = new Session(store.session()).document(1);
  await document.insert(0, "ab");
  const { view, binding, transport } = await editorOver(store, modules, schema);
  transport.onEnd();
  view.dispatch(view.state.tr.insertText("x", 2));
  await turn();
  await document.insert(1, "x");
  assert.equal(await resumed({ store, document, view, binding }), "axxb");
});

test("if nobody tells what changed, it is said that a removal or a mark may be lost, and what was typed isn't", async () => {
  for (const [act, text, says] of [
    [(tr) => tr.delete(2, 4), "aYZd", true],
    [(tr) => tr.addMark(2, 4, schema.mark("strong")), "aYZd", true],
    [(tr) => tr.insertText("x", 3), "axYZd", false],
    [(tr) => tr.delete(4, 5), "aYZ", false],
  ]) {
    const cut = await cutOff("abcd", act, { made: false });
    await cut.document.delete(1, 2);
    await cut.document.insert(1, "YZ");
    cut.store.openAnew();
    assert.equal(await resumed(cut), text);
    assert.equal(cut.errors.some(({ message }) => message.startsWith("the file was opened anew")), says);
  }
});
