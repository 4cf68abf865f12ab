// Several editors at once, at random: all come to show one document, and nothing that was typed is lost.

import assert from "node:assert/strict";
import { test } from "node:test";

import { behind } from "../src/paragraphs/shown.js";
import { Store } from "./fake.mjs";
import { cut, editorOver, editorsOver, goOn, isEnded, numbers, plainSchema, prosemirror, seen, someMarks } from "./support.mjs";

const modules = prosemirror();
const { TextSelection } = modules.state;
const schema = plainSchema(modules.model);
const MARKS = someMarks(schema);

/** One thing that somebody does in an editor. Each letter that is typed is a new one. */
function act(state, below, letter) {
  const { tr } = state;
  const place = () => TextSelection.near(tr.doc.resolve(below(tr.doc.content.size + 1))).from;
  const marks = below(3) === 0 ? [MARKS[below(MARKS.length)]] : undefined;
  const [from, to] = [place(), place()].sort((one, other) => one - other);
  switch (below(8)) {
    case 0:
      return tr.split(from);
    case 1:
      return tr.delete(from, Math.min(to, from + 8));
    case 2:
      return tr.addMark(from, to, MARKS[below(MARKS.length)]);
    case 3:
      return tr.removeMark(from, to, MARKS[below(MARKS.length)]);
    case 4:
      return tr.insert(from, schema.text(letter, marks)).addMark(from, to, MARKS[0]);
    default:
      return tr.insert(from, schema.text(letter, marks));
  }
}

/** One run: what editors do, in an order by the seed. Each letter is there once at the end, unless it was taken away. */
async function agree(seed, { isCut = false } = {}) {
  const below = numbers(seed);
  const store = new Store();
  const editors = await editorsOver([true, false, false], (options) => editorOver(store, modules, schema, {}, options));
  const typed = new Set();
  const removed = new Set();
  for (let turn = 0; turn < 120; turn += 1) {
    const editor = editors[below(editors.length)];
    const { view, binding, transport } = editor;
    const letter = String.fromCodePoint((turn % 2 === 0 ? 0x4e00 : 0x1f300) + turn);
    const before = [...view.state.doc.textContent];
    view.dispatch(act(view.state, below, letter));
    const { base, pending } = binding.plugin.getState(view.state);
    assert.deepEqual(seen(behind(modules, base, pending)), seen(view.state.doc));
    const after = new Set(view.state.doc.textContent);
    if (after.has(letter)) typed.add(letter);
    for (const gone of before) if (!after.has(gone)) removed.add(gone);
    if (below(4) === 0) transport.held = true;
    if (below(3) === 0) transport.release();
    if (below(6) === 0) await new Promise(setImmediate);
    if (below(10) === 0 && !transport.held) await binding.pull().catch(isEnded);
    if (isCut && below(8) === 0) {
      cut(editor, store, below(3));
      goOn(editor);
    }
  }
  for (const { transport } of editors) transport.release();
  // What was under way over a session that was cut ends on its own.
  for (const { binding } of editors) await binding.settled().catch(isEnded);
  for (const { binding } of editors) await binding.settled();
  for (const { binding } of editors) await binding.pull();
  const fresh = (await editorOver(store, modules, schema)).view.state.doc;
  for (const { view } of editors) assert.deepEqual(seen(view.state.doc), seen(fresh));
  for (const letter of typed) assert(removed.has(letter) || fresh.textContent.includes(letter));
  assert.equal(new Set(fresh.textContent).size, [...fresh.textContent].length);
  return typed.size;
}

test("all editors come to show one document", async () => {
  let typed = 0;
  for (let seed = 1; seed <= 40; seed += 1) typed += await agree(seed);
  assert(typed > 1_000);
});

test("so they do where sessions end, and each letter is there once", async () => {
  let typed = 0;
  for (let seed = 1; seed <= 40; seed += 1) typed += await agree(seed, { isCut: true });
  assert(typed > 1_000);
});
