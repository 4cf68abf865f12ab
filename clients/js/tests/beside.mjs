// A caret, and edits that wait, beside what somebody else does to characters that are equal to those around them.

import assert from "node:assert/strict";
import { test } from "node:test";

import { Session } from "peritext";

import { Store } from "./fake.mjs";
import { editorOver, plainSchema, prosemirror, shown } from "./support.mjs";

const modules = prosemirror();
const { TextSelection } = modules.state;
const schema = plainSchema(modules.model);

const WORDS = "word word word word word";
/** So many characters as one edit puts in, of the same words. */
const [FRONT, END] = [`${"word ".repeat(51)}\n`, `\n${" word".repeat(51)}`];

/** An editor over a text, and somebody else's session. */
async function beside(text) {
  const store = new Store();
  const other = new Session(store.session()).document(1);
  await other.insert(0, text);
  const { view, binding, transport } = await editorOver(store, modules, schema);
  const change = (make) => view.dispatch(make(view.state.tr));
  const select = (from, to = from) => change((tr) => tr.setSelection(TextSelection.create(tr.doc, from, to)));
  return { other, view, binding, transport, change, select };
}

/** Somebody else puts 256 characters in at the front and as many at the end, while what the editor did waits. Then all is answered. */
async function surround({ other, binding, transport }, act = () => {}) {
  transport.held = true;
  act();
  await other.insert(0, FRONT);
  await other.insert((await other.text()).length, END);
  transport.release();
  await binding.pull();
  assert.equal(binding.waiting, 0);
}

test("a caret stays with its character, and a selection with its own", async () => {
  const editor = await beside(WORDS);
  editor.select(8);
  await surround(editor);
  assert.equal(shown(editor.view), `${FRONT}word wo|rd word word word${END}`);
  const start = FRONT.length + 2;
  editor.select(start + 10, start + 14);
  await surround(editor);
  assert.equal(shown(editor.view), `${FRONT}${FRONT}word word |word| word word${END}${END}`);
});

test("what was typed stays where it was typed, and the caret behind it", async () => {
  const editor = await beside(WORDS);
  editor.select(11);
  await surround(editor, () => {
    for (const letter of "word ") editor.change((tr) => tr.insertText(letter));
  });
  assert.equal(await editor.other.text(), `${FRONT}word word word word word word${END}`);
  assert.equal(shown(editor.view), `${FRONT}word word word |word word word${END}`);
  // Whose words these are is told by their marks.
  await surround(editor, () => editor.change((tr) => tr.replaceSelectionWith(schema.text("word ", [schema.mark("em")]), false)));
  const text = await editor.other.spans();
  const before = { text: `${FRONT}${FRONT}word word word ` };
  assert.deepEqual(text, [before, { em: true, text: "word " }, { text: `word word word${END}${END}` }]);
});

test("a word that was made bold is bold, and one that was taken away is gone", async () => {
  const editor = await beside(WORDS);
  await surround(editor, () => editor.change((tr) => tr.addMark(6, 10, schema.mark("strong"))));
  const spans = await editor.other.spans();
  assert.deepEqual(spans, [{ text: `${FRONT}word ` }, { strong: true, text: "word" }, { text: ` word word word${END}` }]);
  const start = FRONT.length + 2;
  await surround(editor, () => editor.change((tr) => tr.delete(start + 10, start + 15)));
  const left = [{ text: `${FRONT}${FRONT}word ` }, { strong: true, text: "word" }, { text: ` word word${END}${END}` }];
  assert.deepEqual(await editor.other.spans(), left);
});

test("all of it at once", async () => {
  const editor = await beside(WORDS);
  await surround(editor, () => {
    editor.change((tr) => tr.addMark(6, 10, schema.mark("strong")));
    editor.change((tr) => tr.delete(11, 16));
    editor.select(11);
    for (const letter of "wo") editor.change((tr) => tr.insertText(letter));
  });
  assert.deepEqual(await editor.other.spans(), [{ text: `${FRONT}word ` }, { strong: true, text: "word" }, { text: ` woword word${END}` }]);
  assert.equal(shown(editor.view), `${FRONT}word word wo|word word${END}`);
});

test("of equal lines a caret stays on its own", async () => {
  const rows = [
    ["a line in front", (other) => other.insert(0, "line\n"), "line\nline\nli|ne\nline"],
    ["a line above", (other) => other.insert(5, "line\n"), "line\nline\nli|ne\nline"],
    ["a line below", (other) => other.insert(10, "line\n"), "line\nli|ne\nline\nline"],
    ["a line at the end", (other) => other.insert(14, "\nline"), "line\nli|ne\nline\nline"],
    ["without the first", (other) => other.delete(0, 5), "li|ne\nline"],
    ["without the last", (other) => other.delete(9, 5), "line\nli|ne"],
    ["without its own", (other) => other.delete(5, 5), "line\n|line"],
    ["without its own and the break above", (other) => other.delete(4, 5), "line|\nline"],
  ];
  for (const [name, edit, wanted] of rows) {
    const { other, view, binding, select } = await beside("line\nline\nline");
    select(9);
    assert.equal(shown(view), "line\nli|ne\nline");
    await edit(other);
    await binding.pull();
    assert.equal(shown(view), wanted, name);
  }
});

test("of equal lines what was typed and marked stays on its own", async () => {
  const rows = [
    ["a line in front", (other) => other.insert(0, "line\n"), "line\nline\nlixne\nline"],
    ["without the first", (other) => other.delete(0, 5), "lixne\nline"],
    ["without the last", (other) => other.delete(9, 5), "line\nlixne"],
  ];
  for (const [name, edit, text] of rows) {
    const { other, view, binding, transport, change, select } = await beside("line\nline\nline");
    select(9);
    transport.held = true;
    change((tr) => tr.insertText("x"));
    change((tr) => tr.addMark(7, 12, schema.mark("strong")));
    await edit(other);
    transport.release();
    await binding.settled();
    assert.equal(await other.text(), text, name);
    assert.equal(shown(view), text.replace("x", "x|"), name);
    assert.deepEqual((await other.spans()).filter(({ strong }) => strong), [{ strong: true, text: "lixne" }], name);
  }
});
