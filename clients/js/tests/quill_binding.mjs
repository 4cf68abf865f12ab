// The Quill binding over a model of the program, with a stand-in for Quill (`quill.mjs`).

import assert from "node:assert/strict";
import { test } from "node:test";

import { EM, Ended, STRONG, Session, comment, link } from "peritext";
import { bind } from "peritext/quill";

import { Store } from "./fake.mjs";
import { Quill } from "./quill.mjs";
import { COMMENTS, open } from "./quill_editor.mjs";
import { cut, goOn, isEnded, numbers } from "./support.mjs";

const [SEVEN, EIGHT] = COMMENTS;

/** A session of somebody else. */
function other(store) {
  return new Session(store.session()).document(1);
}

/** An editor over a text that is there. */
async function over(text, options) {
  const store = new Store();
  const somebody = other(store);
  if (text !== "") await somebody.insert(0, text);
  return { store, somebody, ...(await open(store, {}, options)) };
}

/** The text with the caret, or both ends of the selection, shown in it. */
function shown(quill) {
  const { index, length } = quill.getSelection();
  const text = quill.getText().slice(0, -1);
  return `${text.slice(0, index)}|${length === 0 ? "" : `${text.slice(index, index + length)}|`}${text.slice(index + length)}`;
}

/** The requests with a token that a transport sends from now on. */
function edits(transport) {
  const sent = [];
  const send = transport.send.bind(transport);
  transport.send = (line) => {
    if (line.includes('"token"')) sent.push(JSON.parse(line));
    send(line);
  };
  return sent;
}

/** What is left once the tokens, which are drawn, are taken out. */
function withoutTokens(sent) {
  return sent.map(({ token, doc, ...fields }) => fields);
}

test("a document is read, edited by two, and shown: the first page", async () => {
  const store = new Store();
  const somebody = other(store);
  await somebody.insert(0, "The quick fox\nruns");
  await somebody.mark(4, 9, STRONG);
  const { quill, binding, transport } = await open(store);
  assert.deepEqual(quill.getContents().ops, [{ insert: "The " }, { insert: "quick", attributes: { bold: true } }, { insert: " fox\nruns\n" }]);
  transport.held = true;
  quill.insertText(18, " 😀!", {}, "user");
  quill.formatText(10, 3, "link", "https://example.org/", "user");
  quill.deleteText(0, 4, "user");
  quill.setSelection(9);
  assert.equal(shown(quill), "quick fox|\nruns 😀!");
  await somebody.insert(9, "er");
  await somebody.mark(0, 3, EM);
  transport.release();
  await binding.settled();
  assert.equal(shown(quill), "quicker fox|\nruns 😀!");
  assert.deepEqual(await somebody.spans(), [
    { strong: true, text: "quicker" },
    { text: " " },
    { link: "https://example.org/", text: "fox" },
    { text: "\nruns 😀!" },
  ]);
  assert.deepEqual(quill.getContents().ops, [
    { insert: "quicker", attributes: { bold: true } },
    { insert: " " },
    { insert: "fox", attributes: { link: "https://example.org/" } },
    { insert: "\nruns 😀!\n" },
  ]);
  assert.deepEqual([binding.waiting, binding.rev], [0, store.document(1).rev]);
});

test("what waits goes in one line, with the rev that it was made at, and each line has a token of its own", async () => {
  const { quill, binding, transport } = await over("");
  const sent = edits(transport);
  quill.insertText(0, "abc", {}, "user");
  await binding.settled();
  transport.held = true;
  quill.formatText(1, 2, "bold", true, "user");
  await new Promise(setImmediate);
  quill.updateContents({ ops: [{ delete: 1 }, { retain: 1 }, { insert: "d", attributes: { bold: true } }] }, "user");
  quill.insertText(2, "e", { bold: true }, "user");
  transport.release();
  await binding.settled();
  assert.equal(new Set(sent.map(({ token }) => token)).size, 3);
  assert.deepEqual(withoutTokens(sent), [
    { op: "insert", at: 0, text: "abc", rev: 0 },
    { op: "mark", from: 1, to: 3, kind: "strong", rev: 3 },
    { op: "edits", edits: [{ op: "delete", at: 0, count: 1 }, { op: "insert", at: 1, text: "de" }], rev: 4 },
  ]);
});

test("marks are given and taken away as they are made", async () => {
  const { quill, binding, somebody, transport } = await over("abcd");
  const sent = edits(transport);
  const mark = (name, value, index = 0, length = 3) => quill.formatText(index, length, name, value, "user");
  mark("bold", true, 2, 1);
  mark("bold", true);
  mark("italic", true);
  mark("link", "u");
  mark("link", "v", 1, 1);
  mark("comments", SEVEN, 0, 2);
  mark("comments", `${SEVEN} ${EIGHT}`);
  for (const name of ["bold", "italic", "link", "comments"]) mark(name, null, 2, 1);
  mark("comments", EIGHT, 1, 1);
  await binding.settled();
  assert.deepEqual(await somebody.spans(), [
    { comments: [SEVEN, EIGHT], em: true, link: "u", strong: true, text: "a" },
    { comments: [EIGHT], em: true, link: "v", strong: true, text: "b" },
    { text: "cd" },
  ]);
  const all = sent.flatMap(({ edits: several, ...one }) => several ?? [one]).map(({ op, from, to, kind, id }) => [op, from, to, kind, id].join(" ").trim());
  assert.deepEqual(all, [
    "mark 2 3 strong",
    "mark 0 3 strong",
    "mark 0 3 em",
    "mark 0 3 link",
    "mark 1 2 link",
    `mark 0 2 comment ${SEVEN}`,
    `mark 0 3 comment ${EIGHT}`,
    `mark 2 3 comment ${SEVEN}`,
    "unmark 2 3 strong",
    "unmark 2 3 em",
    "unmark 2 3 link",
    `unmark 2 3 comment ${SEVEN}`,
    `unmark 2 3 comment ${EIGHT}`,
    `unmark 1 2 comment ${SEVEN}`,
  ]);
  assert.deepEqual(quill.getContents().ops[0], { insert: "a", attributes: { bold: true, italic: true, link: "u", comments: `${SEVEN} ${EIGHT}` } });
});

test("what others mark is shown, but not on breaks, and nothing of formats that the editor doesn't have", async () => {
  const { somebody, store, quill, binding } = await over("ab\ncd");
  const small = new Quill();
  const plain = await bind(small, other(store));
  await somebody.mark(1, 4, STRONG);
  await somebody.mark(0, 5, comment(SEVEN));
  await somebody.unmark(0, 1, comment(SEVEN));
  const told = [];
  quill.on("text-change", (delta) => told.push(...delta.ops));
  await Promise.all([binding.pull(), plain.pull()]);
  assert.deepEqual(told, [
    { retain: 1 },
    { retain: 1, attributes: { bold: true, italic: null, link: null, comments: SEVEN } },
    { retain: 1 },
    { retain: 1, attributes: { bold: true, italic: null, link: null, comments: SEVEN } },
    { retain: 1, attributes: { bold: null, italic: null, link: null, comments: SEVEN } },
  ]);
  assert.deepEqual(quill.getContents().ops, [
    { insert: "a" },
    { insert: "b", attributes: { bold: true, comments: SEVEN } },
    { insert: "\n" },
    { insert: "c", attributes: { bold: true, comments: SEVEN } },
    { insert: "d", attributes: { comments: SEVEN } },
    { insert: "\n" },
  ]);
  small.formatText(0, 5, "bold", true, "user");
  small.insertText(5, "!", {}, "user");
  await plain.settled();
  assert.deepEqual(small.getContents().ops, [
    { insert: "ab", attributes: { bold: true } },
    { insert: "\n" },
    { insert: "cd", attributes: { bold: true } },
    { insert: "!\n" },
  ]);
  assert.deepEqual((await somebody.spans()).map(({ text, comments }) => [text, comments]), [["a", undefined], ["b\ncd", [SEVEN]], ["!", undefined]]);
});

test("what is typed has the editor's marks, whatever it came to have", async () => {
  const { quill, binding, somebody } = await over("abcd");
  await somebody.mark(0, 2, STRONG);
  await somebody.mark(0, 4, link("u"));
  await binding.pull();
  quill.insertText(2, "x", {}, "user");
  quill.insertText(0, "y", { bold: true }, "user");
  await binding.settled();
  const wanted = [
    { strong: true, text: "y" },
    { link: "u", strong: true, text: "ab" },
    { text: "x" },
    { link: "u", text: "cd" },
  ];
  assert.deepEqual(await somebody.spans(), wanted);
  assert.deepEqual(quill.getContents().ops.map(({ insert }) => insert), ["y", "ab", "x", "cd", "\n"]);
});

test("the last break is the editor's own, whichever it is", async () => {
  const rows = [
    ["ab\ncd", [{ retain: 3 }, { delete: 3 }], "ab"],
    ["ab\ncd", [{ retain: 2 }, { delete: 4 }], "ab"],
    ["ab\ncd", [{ delete: 6 }], ""],
    ["ab", [{ retain: 3 }, { insert: "c" }], "ab\nc"],
    ["ab", [{ retain: 3 }, { insert: "c\n" }], "ab\nc"],
    ["ab", [{ retain: 2 }, { insert: "c\n" }], "abc\n"],
    ["ab", [{ retain: 2 }, { insert: "c\n" }, { delete: 1 }], "abc"],
    ["\n", [{ delete: 1 }], ""],
    ["\n", [{ retain: 1 }, { delete: 1 }], ""],
    ["", [{ insert: "\n" }], "\n"],
    ["", [{ insert: "a" }, { delete: 1 }], "a"],
  ];
  for (const [text, ops, wanted] of rows) {
    const { quill, binding, somebody } = await over(text);
    quill.updateContents({ ops }, "user");
    await binding.settled();
    assert.equal(quill.getText(), `${wanted}\n`);
    assert.equal(await somebody.text(), wanted, JSON.stringify([text, ops]));
  }
});

test("remote changes keep the caret and the selection with their text", async () => {
  const { quill, binding, somebody } = await over("The fox");
  const after = async (edit) => {
    await edit;
    await binding.pull();
    return shown(quill);
  };
  quill.setSelection(4);
  assert.equal(await after(somebody.insert(0, "😀\n")), "😀\nThe |fox");
  assert.equal(await after(somebody.insert(9, "Y")), "😀\nThe |foxY");
  assert.equal(await after(somebody.insert(6, "Z")), "😀\nThe |ZfoxY");
  assert.equal(await after(somebody.delete(2, 4)), "😀\n|ZfoxY");
  assert.equal(await after(somebody.mark(0, 7, EM)), "😀\n|ZfoxY");
  quill.setSelection(4, 3);
  assert.equal(shown(quill), "😀\nZ|fox|Y");
  assert.equal(await after(somebody.insert(6, "2")), "😀\nZ|fox|2Y");
  assert.equal(await after(somebody.insert(3, "1")), "😀\nZ1|fox|2Y");
  assert.equal(await after(somebody.delete(4, 3)), "😀\nZ1|2Y");
  quill.setSelection(null);
  await somebody.insert(0, "!");
  await binding.pull();
  assert.equal(quill.getSelection(), null);
});

test("what others put into a text that is taken away stays, and what is typed into one that goes is kept", async () => {
  const { quill, binding, somebody, transport } = await over("ab😀\ncdef");
  transport.held = true;
  quill.deleteText(1, 5, "user");
  quill.insertText(1, "!", {}, "user");
  quill.insertText(4, "X", {}, "user");
  await somebody.insert(4, "Z");
  await somebody.insert(3, "Y");
  await somebody.delete(8, 2);
  transport.release();
  await binding.settled();
  assert.equal(await somebody.text(), "a!YZdX");
  assert.equal(quill.getText(), "a!YZdX\n");
});

test("what both take away, or mark, is done once, and that is no error", async () => {
  const errors = [];
  const { quill, binding, somebody, transport } = await over("abcdef", { onError: (error) => errors.push(error) });
  transport.held = true;
  quill.deleteText(1, 3, "user");
  quill.formatText(0, 2, "bold", true, "user");
  await somebody.mark(0, 1, STRONG);
  await somebody.delete(2, 3);
  transport.release();
  await binding.settled();
  assert.deepEqual(await somebody.spans(), [{ strong: true, text: "a" }, { text: "f" }]);
  assert.deepEqual(errors, []);
});

test("a stale edit keeps its token, and the parts into which it came go in one line", async () => {
  const { quill, binding, somebody, transport } = await over("abcd");
  const sent = edits(transport);
  transport.held = true;
  quill.deleteText(0, 4, "user");
  await somebody.insert(2, "xy");
  transport.release();
  await binding.settled();
  assert.equal(await somebody.text(), "xy");
  const [stale, moved] = sent;
  assert.deepEqual([stale.at, stale.count], [0, 4]);
  assert.deepEqual(moved.edits.map(({ at, count }) => [at, count]), [[4, 2], [0, 2]]);
  assert.deepEqual([sent.length, moved.token], [2, stale.token]);
});

test("a change by the program's own code counts as typed, a silent one too", async () => {
  const { quill, binding, somebody } = await over("ab");
  quill.insertText(1, "x", {}, "api");
  quill.insertText(0, "y", {}, "silent");
  await binding.settled();
  assert.equal(await somebody.text(), "yaxb");
});

test("what the program's code does because others changed something is taken, too", async () => {
  const { quill, binding, somebody } = await over("ab");
  quill.on("text-change", (_, before, source) => {
    if (source === "api" && before.ops[0].insert.length < 5) quill.insertText(quill.getLength() - 1, "!", {}, "api");
  });
  await somebody.insert(1, "x");
  await binding.pull();
  assert.equal(quill.getText(), "axb!!\n");
  assert.equal(await somebody.text(), "axb!!");
});

test("what was typed and not looked at yet is told before what others did", async () => {
  const { quill, binding, somebody } = await over("ab");
  quill.setSelection(1);
  await somebody.insert(1, "xyz");
  quill.later([{ retain: 2 }, { insert: "!" }]);
  await binding.pull();
  assert.equal(shown(quill), "a|xyzb!");
  assert.equal(await somebody.text(), "axyzb!");
});

test("what can't be held is taken out of the editor again, and the rest stays", async () => {
  const rows = [
    [[{ retain: 1 }, { insert: { image: "u" } }], "ab"],
    [[{ insert: "x" }, { insert: { image: "u" } }, { insert: "y\n" }], "xy\nab"],
    [[{ retain: 2 }, { retain: 1, attributes: { header: 1 } }], "ab"],
    [[{ retain: 2 }, { insert: "c" }, { insert: "\n", attributes: { header: 1 } }], "abc\n"],
    [[{ insert: "l", attributes: { link: "ä".repeat(513) } }], "lab"],
    [[{ retain: 1, attributes: { link: 7, bold: true } }], "ab"],
    [[{ retain: 1, attributes: { comments: "no uuid" } }], "ab"],
    [[{ insert: "\ud83d" }, { retain: 1 }, { insert: "x\ude00y" }], "axyb"],
  ];
  for (const [ops, wanted] of rows) {
    const { quill, binding, somebody, store } = await over("ab");
    quill.updateContents({ ops }, "user");
    await binding.settled();
    const name = JSON.stringify(ops);
    assert.equal(quill.getText(), `${wanted}\n`, name);
    assert.equal(await somebody.text(), wanted, name);
    const fresh = await open(store);
    assert.deepEqual(quill.getContents(), fresh.quill.getContents(), name);
  }
});

test("halves of characters that come together are a new one, and half a character is none", async () => {
  for (const [ops, wanted] of [
    [[{ retain: 2 }, { delete: 2 }], "a\ud83d\udf15b"],
    [[{ retain: 2 }, { delete: 1 }, { insert: "\ude01" }], "a😁🌕b"],
    [[{ retain: 2 }, { delete: 1 }], "a🌕b"],
    [[{ retain: 2 }, { insert: "x" }], "ax🌕b"],
    [[{ retain: 2, attributes: { bold: true } }], "a🌕b"],
  ]) {
    const { quill, binding, somebody } = await over("a😀🌕b");
    quill.updateContents({ ops }, "user");
    await binding.settled();
    assert.equal(await somebody.text(), wanted, JSON.stringify(ops));
    assert.equal(quill.getText(), `${wanted}\n`);
  }
});

test("a carriage return of somebody else is shown as a break, and stays one character", async () => {
  const { quill, binding, somebody } = await over("a\r\nb");
  assert.equal(quill.getText(), "a\n\nb\n");
  quill.insertText(3, "x", {}, "user");
  await binding.settled();
  await somebody.insert(5, "\r");
  await binding.pull();
  assert.equal(quill.getText(), "a\n\nxb\n\n");
  quill.deleteText(1, 1, "user");
  await binding.settled();
  assert.equal(await somebody.text(), "a\nxb\r");
});

test("an editor that doesn't keep what it is told to show is shown all of it", async () => {
  const { quill, binding, somebody } = await over("abc");
  const { updateContents } = quill;
  quill.updateContents = () => {};
  await somebody.insert(1, "x");
  await binding.pull();
  quill.updateContents = updateContents;
  assert.equal(quill.getText(), "axbc\n");
  quill.insertText(4, "!", {}, "user");
  await binding.settled();
  assert.equal(await somebody.text(), "axbc!");
});

test("a refusal is told, and what is left is sent again", async () => {
  const errors = [];
  const { quill, binding, somebody, transport } = await over("", { onError: (error) => errors.push(error.message) });
  const { send } = transport;
  transport.send = (line) => send.call(transport, line.replace('"insert"', '"sing"'));
  quill.insertText(0, "a", {}, "user");
  await assert.rejects(binding.settled(), { number: 3 });
  assert.deepEqual(errors, ["3 request: the line is no request of docs/PROTOCOL.md; mend what made it"]);
  transport.send = send;
  quill.insertText(1, "b", {}, "user");
  await binding.settled();
  assert.equal(await somebody.text(), "ab");
  transport.onEnd();
  await assert.rejects(binding.pull(), Ended);
});

for (const goesOn of [true, false]) {
  test(`an edit whose answer was lost is there once, whether it was made or not: ${goesOn ? "the session" : "the binding"} goes on`, async () => {
    for (const made of [0, 2]) {
      const store = new Store();
      const somebody = other(store);
      await somebody.insert(0, "ab");
      const editor = { goesOn };
      Object.assign(editor, await open(store, goesOn ? { again: async () => editor.transport } : {}));
      const { quill, binding } = editor;
      editor.transport.held = true;
      quill.insertText(1, "x", { italic: true }, "user");
      await new Promise(setImmediate);
      quill.insertText(2, "y", {}, "user");
      cut(editor, store, made);
      goOn(editor);
      await binding.settled().catch(isEnded);
      await binding.settled();
      assert.equal(binding.waiting, 0);
      assert.deepEqual(await somebody.spans(), [{ text: "a" }, { em: true, text: "x" }, { text: "yb" }]);
    }
  });
}

test("if nobody tells what changed, what differs is read, and what was typed is kept", async () => {
  const errors = [];
  const { quill, binding, somebody, store, transport } = await over("abcd", { onError: (error) => errors.push(error) });
  transport.onEnd();
  quill.insertText(2, "x", {}, "user");
  quill.deleteText(3, 1, "user");
  await assert.rejects(binding.settled(), Ended);
  await somebody.delete(1, 2);
  await somebody.insert(1, "YZ");
  store.openAnew();
  await binding.resume(other(store));
  assert.equal(await somebody.text(), "axYZd");
  assert.equal(quill.getText(), "axYZd\n");
  assert(errors.some(({ message }) => message.startsWith("the file was opened anew")));
});

test("a watch is followed until it ends", async () => {
  const { quill, binding, somebody } = await over("ab");
  const waiting = [];
  const follows = binding.follow({
    async *[Symbol.asyncIterator]() {
      yield 2;
      await somebody.insert(1, "x");
      yield 3;
      waiting.push(quill.getText());
    },
  });
  await follows;
  assert.deepEqual(waiting, ["axb\n"]);
});

test("once it is closed, the editor is left alone and nothing more is sent", async () => {
  const { quill, binding, somebody, transport } = await over("ab");
  transport.held = true;
  quill.insertText(1, "x", {}, "user");
  await new Promise(setImmediate);
  binding.close();
  quill.insertText(1, "y", {}, "user");
  transport.release();
  await binding.settled();
  await binding.pull();
  assert.deepEqual([quill.getText(), await somebody.text()], ["ayxb\n", "axb"]);
  assert.deepEqual([binding.waiting, binding.rev], [0, -1]);
});

test("editors agree, though what is typed is looked at late", async () => {
  for (let seed = 1; seed <= 10; seed += 1) {
    const below = numbers(seed);
    const store = new Store();
    const editors = await Promise.all([open(store), open(store)]);
    const [typed, removed] = [new Set(), new Set()];
    for (let turn = 0; turn < 60; turn += 1) {
      const { quill, binding, transport } = editors[below(2)];
      quill.update();
      const text = quill.getText();
      const at = [...text.slice(0, -1)].slice(0, below([...text].length)).join("").length;
      const letter = String.fromCodePoint((turn % 2 === 0 ? 0x4e00 : 0x1f300) + turn);
      const next = String.fromCodePoint(text.codePointAt(at));
      if (below(4) > 0) {
        quill.later([{ retain: at }, { insert: letter }]);
        typed.add(letter);
      } else if (next !== "\n") {
        quill.later([{ retain: at }, { delete: next.length }]);
        removed.add(next);
      }
      transport.held = below(3) === 0;
      if (!transport.held) transport.release();
      if (below(3) === 0) await new Promise(setImmediate);
      if (below(4) === 0 && !transport.held) await binding.pull();
    }
    for (const { transport } of editors) transport.release();
    for (const { binding } of editors) await binding.settled();
    for (const { binding } of editors) await binding.pull();
    const text = await other(store).text();
    for (const { quill } of editors) assert.equal(quill.getText(), `${text}\n`, `seed ${seed}`);
    assert.deepEqual([...text].sort(), [...typed].filter((letter) => !removed.has(letter)).sort(), `seed ${seed}`);
  }
});
