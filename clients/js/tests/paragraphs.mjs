// Documents as texts, and an editor's steps as edits.

import assert from "node:assert/strict";
import { test } from "node:test";

import { requestOf } from "../src/editing/edits.js";
import { documentOf, isHeld, runsOf } from "../src/paragraphs/characters.js";
import { editsOf } from "../src/paragraphs/local.js";
import { placeOf, positionOf, runsBetween, sizeOf } from "../src/paragraphs/positions.js";
import { behind, behindSteps } from "../src/paragraphs/shown.js";
import { plainSchema, prosemirror } from "./support.mjs";

const modules = prosemirror();
const schema = plainSchema(modules.model);
const { strong, em, link, comment, code } = schema.marks;
const ID = "00000000-0000-0000-0000-000000000007";

/** The document of texts, each with its marks behind it. */
function documentOfTexts(...runs) {
  return documentOf(schema, runs.map(([text, marks = {}]) => ({ text, marks })));
}

function plain(text) {
  return documentOfTexts([text]);
}

/** The requests of a change of a document. */
function requests(doc, change) {
  const transform = new modules.transform.Transform(doc);
  change(transform);
  return transform.steps.flatMap((step, index) => {
    const before = transform.docs[index];
    const after = transform.docs[index + 1] ?? transform.doc;
    const edits = editsOf(modules, step, before, after);
    assert(behind(modules, before, edits.map((edit) => ({ edit }))).eq(after));
    return edits.map((edit) => JSON.parse(JSON.stringify(requestOf(edit))));
  });
}

test("a break between paragraphs is one character", () => {
  for (const text of ["", "a", "\n", "ab\n\nc\n", "😀\n😀"]) {
    const doc = plain(text);
    assert.equal(doc.childCount, text.split("\n").length);
    assert.equal(runsOf(doc).map((run) => run.text).join(""), text);
    assert.equal(sizeOf(doc), [...text].length);
  }
});

test("each place has its position", () => {
  const doc = plain("a😀\n\nb");
  const positions = [1, 2, 4, 6, 8, 9];
  assert.deepEqual(positions.map((_, place) => positionOf(doc, place)), positions);
  assert.deepEqual(positions.map((position) => placeOf(doc, position)), [0, 1, 2, 3, 4, 5]);
  assert.deepEqual([0, 3, 5, 7, 10].map((position) => placeOf(doc, position)), [0, 1, 2, 3, 5]);
});

test("the text between two places", () => {
  const doc = documentOfTexts(["a😀\n\nb"], ["c", { strong: true }]);
  const text = (from, to) => runsBetween(doc, from, to).map((run) => run.text).join("");
  for (let from = 0; from <= 6; from += 1) {
    for (let to = from; to <= 6; to += 1) assert.equal(text(from, to), ["a", "😀", "\n", "\n", "b", "c"].slice(from, to).join(""));
  }
});

test("marks are shown, and those on a break aren't", () => {
  const doc = documentOfTexts(["a\nb", { strong: true, em: true }], ["c", { link: "u", comments: [ID] }]);
  assert.equal(doc.toString(), 'doc(paragraph(em(strong("a"))), paragraph(em(strong("b")), link(comment("c"))))');
});

test("what peritext has is held, and nothing else", () => {
  const text = (content, ...marks) => schema.node("doc", null, [schema.node("paragraph", null, [schema.text(content, marks)])]);
  const held = [strong.create(), em.create(), link.create({ href: "u" }), comment.create({ id: ID })];
  for (const mark of held) assert(isHeld(text("x", mark)));
  const others = [
    code.create(),
    link.create({ href: "u", title: "t" }),
    link.create({ href: "" }),
    link.create({ href: "ä".repeat(513) }),
    link.create({ href: 7 }),
    comment.create({ id: "7" }),
    comment.create({ id: "ABCDEF00-0000-0000-0000-000000000007" }),
  ];
  for (const mark of others) assert(!isHeld(text("x", mark)));
  for (const content of ["a\nb", "\ud83d", "\ude00"]) assert(!isHeld(text(content)));
  assert(!isHeld(schema.node("doc", null, [schema.node("heading")])));
  assert(!isHeld(schema.node("doc", null, [schema.node("paragraph", null, [schema.node("image")])])));
});

test("steps lead from a document to another", () => {
  const before = documentOfTexts(["ab\ncd"], ["ef\ng", { strong: true }], ["h", { link: "u" }]);
  const strongly = { strong: true };
  const steps = [
    { retain: 1, attributes: { em: true } },
    { insert: "x\n😀", attributes: strongly },
    { delete: 2 },
    { retain: 3, attributes: { comments: [ID] } },
    { retain: 3 },
    { insert: "!", attributes: {} },
    { retain: 1, attributes: { link: "v" } },
  ];
  const after = documentOfTexts(["a", { em: true }], ["x\n😀", strongly], ["cde", { comments: [ID] }], ["f\ng", strongly], ["!"], ["h", { link: "v" }]);
  assert.equal(behindSteps(modules, before, steps).toString(), after.toString());
  assert(behindSteps(modules, before, steps).eq(after));
});

test("typing, splitting and joining are inserts and deletes", () => {
  const doc = plain("a😀b\nc");
  assert.deepEqual(requests(doc, (it) => it.insert(4, schema.text("😀x"))), [{ op: "insert", at: 2, text: "😀x" }]);
  assert.deepEqual(requests(doc, (it) => it.split(4)), [{ op: "insert", at: 2, text: "\n" }]);
  assert.deepEqual(requests(doc, (it) => it.join(6)), [{ op: "delete", at: 3, count: 1 }]);
  assert.deepEqual(requests(doc, (it) => it.delete(2, 8)), [{ op: "delete", at: 1, count: 4 }]);
  assert.deepEqual(requests(plain("aaa"), (it) => it.insert(2, schema.text("a"))), [{ op: "insert", at: 1, text: "a" }]);
});

test("whole paragraphs come and go with one break", () => {
  const doc = plain("a\nb");
  const paragraph = schema.node("paragraph", null, [schema.text("x")]);
  assert.deepEqual(requests(doc, (it) => it.insert(0, paragraph)), [{ op: "insert", at: 0, text: "x\n" }]);
  assert.deepEqual(requests(doc, (it) => it.insert(3, paragraph)), [{ op: "insert", at: 1, text: "\nx" }]);
  assert.deepEqual(requests(doc, (it) => it.insert(6, paragraph)), [{ op: "insert", at: 3, text: "\nx" }]);
  assert.deepEqual(requests(doc, (it) => it.delete(0, 3)), [{ op: "delete", at: 0, count: 2 }]);
  assert.deepEqual(requests(doc, (it) => it.delete(3, 6)), [{ op: "delete", at: 1, count: 2 }]);
});

test("what is replaced goes, and comes, whatever letters are the same", () => {
  const doc = plain("ab\ncd");
  assert.deepEqual(requests(doc, (it) => it.replaceWith(1, 2, schema.text("a"))), [
    { op: "delete", at: 0, count: 1 },
    { op: "insert", at: 0, text: "a" },
  ]);
  assert.deepEqual(requests(doc, (it) => it.replaceWith(0, 8, schema.node("paragraph", null, [schema.text("axd")]))), [
    { op: "delete", at: 0, count: 5 },
    { op: "insert", at: 0, text: "axd" },
  ]);
});

test("what a step only puts into another frame stays", () => {
  assert.deepEqual(requests(plain("ab\ncd"), (it) => it.setNodeMarkup(0, schema.nodes.paragraph)), []);
});

test("halves of characters that come together are a new one", () => {
  assert.deepEqual(requests(plain("a😀🌕b"), (it) => it.delete(3, 5)), [
    { op: "delete", at: 1, count: 2 },
    { op: "insert", at: 1, text: "\ud83d\udf15" },
  ]);
});

test("long edits are made in parts of 256 characters", () => {
  const sent = requests(plain("y".repeat(300)), (it) => it.replaceWith(1, 301, schema.text("😀".repeat(300))));
  assert.deepEqual(sent.map(({ op, at, count, text }) => [op, at, count ?? [...text].length]), [
    ["delete", 0, 256],
    ["delete", 0, 44],
    ["insert", 0, 256],
    ["insert", 256, 44],
  ]);
});

test("marks are sent as the editor's steps have them, a paragraph each", () => {
  const doc = documentOfTexts(["ab\ncd"], ["ef", { link: "u" }]);
  assert.deepEqual(requests(doc, (it) => it.addMark(2, 7, strong.create())), [
    { op: "mark", from: 1, to: 2, kind: "strong" },
    { op: "mark", from: 3, to: 5, kind: "strong" },
  ]);
  assert.deepEqual(requests(doc, (it) => it.addMark(7, 9, link.create({ href: "v" }))), [
    { op: "unmark", from: 5, to: 7, kind: "link" },
    { op: "mark", from: 5, to: 7, kind: "link", url: "v" },
  ]);
});
