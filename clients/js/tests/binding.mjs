// The ProseMirror binding over a model of the program.

import assert from "node:assert/strict";
import { test } from "node:test";

import { EM, Ended, STRONG, comment, link } from "peritext";

import { Store } from "./fake.mjs";
import { editorOver, plainSchema, prosemirror, shown } from "./support.mjs";

const modules = prosemirror();
const { TextSelection } = modules.state;
const schema = plainSchema(modules.model);
const { strong, link: linkType } = schema.marks;
const COMMENT = "00000000-0000-0000-0000-000000000007";

function editor(store, options) {
  return editorOver(store, modules, schema, options);
}

function change(view, make) {
  view.dispatch(make(view.state.tr));
}

function putCaret(view, anchor, head = anchor) {
  change(view, (tr) => tr.setSelection(TextSelection.create(tr.doc, anchor, head)));
}

test("the document is read, and typing is sent", async () => {
  const store = new Store();
  const { document } = await editor(store);
  await document.insert(0, "The quick fox\nruns");
  await document.mark(4, 9, STRONG);
  const { view, binding } = await editor(store);
  assert.equal(view.state.doc.toString(), 'doc(paragraph("The ", strong("quick"), " fox"), paragraph("runs"))');
  change(view, (tr) => tr.insertText("😀!", 20));
  change(view, (tr) => tr.split(5));
  change(view, (tr) => tr.delete(1, 3));
  await binding.settled();
  assert.equal(await document.text(), "e \nquick fox\nruns😀!");
});

/** The requests with a token that a transport sends from now on. */
function edits(transport) {
  const sent = [];
  const send = transport.send.bind(transport);
  transport.send = (line) => {
    if (line.includes('"token"')) sent.push(JSON.parse(line));
    send(line);
  };
  return sent;
}

test("what waits goes in one line, with the rev that it was made at, and each line has a token of its own", async () => {
  const { view, binding, transport } = await editor(new Store());
  const sent = edits(transport);
  change(view, (tr) => tr.insertText("abc", 1));
  await binding.settled();
  transport.held = true;
  change(view, (tr) => tr.addMark(2, 4, strong.create()));
  await new Promise(setImmediate);
  change(view, (tr) => tr.delete(1, 2).insertText("d", 3));
  change(view, (tr) => tr.insertText("e", 4));
  transport.release();
  await binding.settled();
  assert.equal(new Set(sent.map(({ token }) => token)).size, 3);
  assert.deepEqual(sent.map(({ token, ...fields }) => fields), [
    { doc: 1, op: "insert", at: 0, text: "abc", rev: 0 },
    { doc: 1, op: "mark", from: 1, to: 3, kind: "strong", rev: 3 },
    { doc: 1, op: "edits", edits: [{ op: "delete", at: 0, count: 1 }, { op: "insert", at: 2, text: "de" }], rev: 4 },
  ]);
});

test("others see all of a transaction, or nothing", async () => {
  const store = new Store();
  const { view, binding, document, transport } = await editor(store);
  change(view, (tr) => tr.insertText("abcd".repeat(200), 1));
  await binding.settled();
  const sent = edits(transport);
  transport.held = true;
  change(view, (tr) => tr.insert(1, schema.text("xy".repeat(400), [strong.create()])).delete(3, 1_201));
  await new Promise(setImmediate);
  transport.pass(1);
  assert.deepEqual(store.document(1).spans().spans, [{ text: `xy${"abcd".repeat(100)}` }]);
  transport.release();
  await binding.settled();
  assert.deepEqual(sent.map(({ op }) => op), ["edits", "mark"]);
  assert.deepEqual(await document.spans(), [{ strong: true, text: "xy" }, { text: "abcd".repeat(100) }]);
});

test("what may be made goes again as it is, whatever is typed on", async () => {
  const store = new Store();
  const { view, binding, document, transport } = await editor(store, { onError() {} });
  const { send } = transport;
  transport.send = (line) => {
    if (!line.includes('"token"')) return send.call(transport, line);
    store.answer(line);
    setImmediate(() => transport.onLine('{"code":9,"error":"failed","ok":false}'));
  };
  change(view, (tr) => tr.insertText("ab", 1).addMark(1, 3, strong.create()));
  await assert.rejects(binding.settled(), { number: 9 });
  transport.send = send;
  const sent = edits(transport);
  change(view, (tr) => tr.insertText("c", 3));
  await binding.settled();
  assert.deepEqual(sent.map((request) => request.edits?.length), [2, undefined]);
  assert.equal(await document.text(), "abc");
});

test("marks are given and taken away", async () => {
  const { view, binding, document } = await editor(new Store());
  change(view, (tr) => tr.insertText("abcd", 1));
  const marks = [strong.create(), linkType.create({ href: "u" }), schema.marks.comment.create({ id: COMMENT })];
  for (const mark of marks) change(view, (tr) => tr.addMark(1, 4, mark));
  change(view, (tr) => tr.addMark(2, 3, linkType.create({ href: "v" })));
  for (const mark of marks) change(view, (tr) => tr.removeMark(3, 4, mark));
  await binding.settled();
  assert.deepEqual(await document.spans(), [
    { comments: [COMMENT], link: "u", strong: true, text: "a" },
    { comments: [COMMENT], link: "v", strong: true, text: "b" },
    { text: "cd" },
  ]);
});

test("what is typed has the editor's marks, whatever it came to have", async () => {
  const store = new Store();
  const { document } = await editor(store);
  await document.insert(0, "abcd");
  await document.mark(0, 2, STRONG);
  await document.mark(0, 4, link("u"));
  const { view, binding } = await editor(store);
  change(view, (tr) => tr.insert(3, schema.text("x")));
  change(view, (tr) => tr.insert(1, schema.text("y", [strong.create()])));
  await binding.settled();
  const doc = 'doc(paragraph(strong("y"), link(strong("ab")), "x", link("cd")))';
  assert.equal(view.state.doc.toString(), doc);
  assert.deepEqual(await document.spans(), [
    { strong: true, text: "y" },
    { link: "u", strong: true, text: "ab" },
    { text: "x" },
    { link: "u", text: "cd" },
  ]);
});

test("a stale edit keeps its token, and the parts into which it came go in one line", async () => {
  const store = new Store();
  const { view, binding, transport } = await editor(store);
  change(view, (tr) => tr.insertText("abcd", 1));
  await binding.settled();
  const other = (await editor(store)).document;
  const sent = edits(transport);
  transport.held = true;
  change(view, (tr) => tr.delete(1, 5));
  await other.insert(2, "xy");
  transport.release();
  await binding.settled();
  assert.equal(await other.text(), "xy");
  const [stale, moved] = sent;
  assert.deepEqual([stale.at, stale.count], [0, 4]);
  assert.deepEqual(moved.edits.map(({ at, count }) => [at, count]), [[4, 2], [0, 2]]);
  assert.deepEqual([sent.length, moved.token], [2, stale.token]);
});

test("a stale edit is moved and sent again", async () => {
  const store = new Store();
  const { view, binding, document, transport } = await editor(store);
  change(view, (tr) => tr.insertText("The fox", 1));
  await binding.settled();
  const other = (await editor(store)).document;
  transport.held = true;
  change(view, (tr) => tr.insertText(" runs", 8));
  change(view, (tr) => tr.insertText("!", 13));
  await other.insert(4, "quick ");
  await other.delete(0, 4);
  await other.mark(0, 5, EM);
  transport.release();
  await binding.settled();
  assert.equal(await document.text(), "quick fox runs!");
  assert.equal(view.state.doc.toString(), 'doc(paragraph(em("quick"), " fox runs!"))');
});

test("what is typed into a text that goes meanwhile is kept", async () => {
  const store = new Store();
  const { view, binding, document, transport } = await editor(store);
  change(view, (tr) => tr.insertText("abcdef", 1));
  await binding.settled();
  transport.held = true;
  change(view, (tr) => tr.insertText("X", 4));
  await (await editor(store)).document.delete(1, 4);
  transport.release();
  await binding.settled();
  assert.equal(await document.text(), "aXf");
});

test("what others put into a text that is taken away stays", async () => {
  const store = new Store();
  const { view, binding, document, transport } = await editor(store);
  change(view, (tr) => tr.insertText("ab😀", 1).split(5).insertText("cd", 7));
  await binding.settled();
  const other = (await editor(store)).document;
  transport.held = true;
  change(view, (tr) => tr.delete(2, 8));
  change(view, (tr) => tr.insertText("!", 2));
  await other.insert(4, "Y");
  await other.insert(3, "X");
  transport.release();
  await binding.settled();
  assert.equal(await document.text(), "a!XYd");
  assert.equal(view.state.doc.toString(), 'doc(paragraph("a!XYd"))');
});

test("what was typed and is taken away again goes, wherever it came to stand", async () => {
  const store = new Store();
  const { view, binding, document, transport } = await editor(store);
  change(view, (tr) => tr.insertText("abcd", 1));
  await binding.settled();
  transport.held = true;
  change(view, (tr) => tr.insertText("Y", 4));
  change(view, (tr) => tr.insertText("😀", 2));
  change(view, (tr) => tr.delete(2, 7));
  await (await editor(store)).document.delete(1, 2);
  transport.release();
  await binding.settled();
  assert.equal(await document.text(), "ad");
});

test("a link that others changed goes where it is taken away", async () => {
  const store = new Store();
  const { view, binding, document, transport } = await editor(store);
  change(view, (tr) => tr.insert(1, schema.text("a", [linkType.create({ href: "u" })])));
  await binding.settled();
  transport.held = true;
  change(view, (tr) => tr.removeMark(1, 2, linkType.create({ href: "u" })));
  await (await editor(store)).document.mark(0, 1, link("v"));
  transport.release();
  await binding.settled();
  assert.deepEqual(await document.spans(), [{ text: "a" }]);
  assert.equal(view.state.doc.toString(), 'doc(paragraph("a"))');
});

test("remote changes keep the caret and the selection with their text", async () => {
  const store = new Store();
  const { view, binding } = await editor(store);
  change(view, (tr) => tr.insertText("The fox", 1));
  await binding.settled();
  const other = (await editor(store)).document;
  const after = async (edit) => {
    await edit;
    await binding.pull();
    return shown(view);
  };
  putCaret(view, 5);
  assert.equal(await after(other.insert(0, "X\n")), "X\nThe |fox");
  assert.equal(await after(other.insert(9, "Y")), "X\nThe |foxY");
  assert.equal(await after(other.insert(6, "Z")), "X\nThe |ZfoxY");
  assert.equal(await after(other.delete(2, 4)), "X\n|ZfoxY");
  assert.equal(await after(other.mark(0, 7, EM)), "X\n|ZfoxY");
  putCaret(view, 5, 8);
  assert.equal(shown(view), "X\nZ|fox|Y");
  assert.equal(await after(other.insert(6, "2")), "X\nZ|fox|2Y");
  assert.equal(await after(other.insert(3, "1")), "X\nZ1|fox|2Y");
  assert.equal(await after(other.delete(4, 3)), "X\nZ1|2Y");
});

test("marks that the next typing is to have stay", async () => {
  const store = new Store();
  const { view, binding } = await editor(store);
  change(view, (tr) => tr.addStoredMark(strong.create()));
  await (await editor(store)).document.insert(0, "abc");
  await binding.pull();
  change(view, (tr) => tr.replaceSelectionWith(schema.text("x"), true));
  await binding.settled();
  assert.equal(view.state.doc.toString(), 'doc(paragraph(strong("x"), "abc"))');
});

test("remote changes aren't undone by this editor", async () => {
  const store = new Store();
  const { view, binding } = await editor(store);
  const { dispatch } = view;
  const histories = [];
  view.dispatch = (tr) => {
    if (tr.docChanged) histories.push(tr.getMeta("addToHistory"));
    dispatch.call(view, tr);
  };
  await (await editor(store)).document.insert(0, "abc");
  await binding.pull();
  assert.deepEqual(histories, [false]);
});

test("what peritext can't hold isn't taken into the document", async () => {
  const { view, binding, document } = await editor(new Store());
  change(view, (tr) => tr.insertText("a😀", 1));
  const { doc } = view.state;
  change(view, (tr) => tr.setBlockType(1, 1, schema.nodes.heading));
  change(view, (tr) => tr.insert(1, schema.node("image")));
  change(view, (tr) => tr.addMark(1, 2, schema.marks.code.create()));
  change(view, (tr) => tr.delete(2, 3));
  change(view, (tr) => tr.addMark(1, 3, strong.create()));
  assert(view.state.doc.eq(doc));
  await binding.settled();
  assert.equal(await document.text(), "a😀");
});

test("marks that the schema doesn't have are left alone", async () => {
  const store = new Store();
  const { document } = await editor(store);
  await document.insert(0, "abc");
  await document.mark(0, 3, comment(COMMENT));
  const small = new modules.model.Schema({ nodes: schema.spec.nodes, marks: { strong: {} } });
  const { view, binding } = await editorOver(store, modules, small);
  change(view, (tr) => tr.addMark(2, 3, small.marks.strong.create()));
  change(view, (tr) => tr.insertText("!", 4));
  await binding.settled();
  assert.deepEqual(await document.spans(), [
    { comments: [COMMENT], text: "a" },
    { comments: [COMMENT], strong: true, text: "b" },
    { comments: [COMMENT], text: "c" },
    { text: "!" },
  ]);
});

test("a refusal is told, and what is left is sent again", async () => {
  const store = new Store();
  const errors = [];
  const { view, binding, document, transport } = await editor(store, { onError: (error) => errors.push(error.message) });
  const { send } = transport;
  transport.send = (line) => send.call(transport, line.replace('"insert"', '"sing"'));
  change(view, (tr) => tr.insertText("a", 1));
  await assert.rejects(binding.settled(), { number: 3 });
  assert.deepEqual(errors, ["3 request: the line is no request of docs/PROTOCOL.md; mend what made it"]);
  transport.send = send;
  change(view, (tr) => tr.insertText("b", 2));
  await binding.settled();
  assert.equal(await document.text(), "ab");
  transport.onEnd();
  await assert.rejects(binding.pull(), Ended);
});

test("an editor that is gone is left alone", async () => {
  const { view, binding, transport } = await editor(new Store());
  transport.held = true;
  change(view, (tr) => tr.insertText("a", 1));
  await new Promise(setImmediate);
  view.destroy();
  transport.release();
  await binding.settled();
  assert.equal(shown(view), "a|");
});
