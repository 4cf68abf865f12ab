// What the browser draws as selected, while others change the texts of both editors.

import assert from "node:assert/strict";

import { FIRST, pause, withPage } from "./page.mjs";
import { test } from "./timed.mjs";

const TEXT = "one two three";

/** What others do to a text, each time with a text that is seen afterwards. */
const CHANGES = [
  [(text) => text.insert(0, "X "), "X one two three"],
  [(text) => text.insert(0, "Y\n"), "Y\nX one two three"],
  [(text) => text.insert(7, "."), "Y\nX one. two three"],
  [(text) => text.delete(0, 2), "X one. two three"],
  [(text) => text.delete(0, 2), "one. two three"],
  [(text) => text.mark(0, 6, { kind: "strong" }), "one. two three"],
];

/** Runs a test over two editors that are parted and have the same text, each behind a session of somebody else. */
function parted(work) {
  return withPage(async (page) => {
    await page.browser.click("#link-switch");
    await page.link("parted");
    const others = {};
    for (const name of ["alice", "bob"]) {
      others[name] = (await page.session(name)).document(FIRST);
      await others[name].insert(0, TEXT);
      await page.shows(name, TEXT);
    }
    await work(page, others);
    for (const { session } of Object.values(others)) await session.close();
  });
}

/** Makes the changes of others in an editor, and looks after each of them. */
async function changed(page, name, other, look) {
  for (const [change, text] of CHANGES) {
    await change(other);
    await page.shows(name, text);
    await pause(100);
    await look(text);
  }
}

/** What is selected, what has the focus, and how often either one changed since the last time. */
function drawn(page) {
  return page.browser.run(() => {
    if (window.moves === undefined) {
      for (const kind of ["selectionchange", "focusin", "focusout"]) document.addEventListener(kind, () => (window.moves += 1));
    }
    const { moves } = window;
    window.moves = 0;
    const { anchorNode, anchorOffset, focusNode, focusOffset } = getSelection();
    return { text: String(getSelection()), ends: [anchorNode.data, anchorOffset, focusNode.data, focusOffset], focus: document.activeElement.className, moves };
  });
}

for (const [name, other] of [["alice", "bob"], ["bob", "alice"]]) {
  test(`changes at ${other} leave the selection at ${name} alone`, () =>
    parted(async (page, others) => {
      await page.select(other, "three");
      await page.select(name, "two");
      await drawn(page);
      const before = await drawn(page);
      assert.deepEqual(before, { text: "two", ends: [TEXT, 4, TEXT, 7], focus: "ProseMirror ProseMirror-focused", moves: 0 });
      await changed(page, other, others[other], async (text) => assert.deepEqual(await drawn(page), before, text));
    }));
}

test("changes in an editor keep its selection with its text, with the focus and without", () =>
  parted(async (page, others) => {
    for (const [name, leave] of [["alice", () => {}], ["bob", () => document.querySelector("#link-switch").focus()]]) {
      await page.select(name, "two");
      await page.browser.run(leave);
      const { focus } = await drawn(page);
      await changed(page, name, others[name], async (text) => {
        const now = await drawn(page);
        assert.deepEqual([now.text, now.focus], ["two", focus], text);
      });
    }
  }));
