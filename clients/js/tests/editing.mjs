// Edits that wait, and others' steps: in either order they lead to the same text.

import assert from "node:assert/strict";
import { test } from "node:test";

import { EM, STRONG, comment, link } from "peritext";

import { crossed } from "../src/editing/crossing.js";
import { fitted } from "../src/editing/fitting.js";
import { corrections, withGiven } from "../src/editing/made.js";
import { NONE, changed } from "../src/editing/marks.js";
import { behindOthers, pendingOf, withEdits } from "../src/editing/pending.js";
import { cutAt } from "../src/editing/steps.js";
import * as texts from "../src/editing/texts.js";
import { numbers } from "./support.mjs";

const MARKS = [STRONG, EM, link("u"), link("v"), comment("c"), comment("d")];
const BOLD = { strong: true };

/** The characters behind steps. Each of `characters` has an `id`, and none that came has. */
function behindSteps(characters, steps) {
  return cutAt(steps, [characters.length]).flatMap(({ step, old }) => {
    if ("delete" in step) return [];
    if ("insert" in step) return [...step.insert].map((text) => ({ text, marks: step.attributes }));
    const kept = characters.slice(old, old + step.retain);
    return step.attributes === undefined ? kept : kept.map((character) => ({ ...character, marks: step.attributes }));
  });
}

/** The characters behind edits. */
function behind(characters, pending) {
  const result = [...characters];
  for (const { edit } of pending) {
    if (edit.op === "insert") result.splice(edit.at, 0, ...edit.runs.flatMap(({ text, marks }) => [...text].map((letter) => ({ text: letter, marks }))));
    else if (edit.op === "delete") assert.equal(result.splice(edit.at, edit.count).length, edit.count);
    else for (let place = edit.from; place < edit.to; place += 1) result[place] = { ...result[place], marks: changed(result[place].marks, edit) };
  }
  return result;
}

/** What by chance happens to a text of so many characters. */
class Chance {
  constructor(seed) {
    this.below = numbers(seed);
  }

  marks() {
    return MARKS.filter(() => this.below(4) === 0).reduce((marks, mark) => changed(marks, { mark, isOn: true }), NONE);
  }

  text(letters) {
    return [...letters].slice(0, 1 + this.below([...letters].length)).join("");
  }

  steps(count) {
    const steps = [];
    for (let left = count; left > 0 && this.below(6) > 0; ) {
      const some = 1 + this.below(left);
      const step = [{ delete: some }, { retain: some, attributes: this.marks() }, { retain: some }, undefined, undefined][this.below(5)];
      steps.push(step ?? { insert: this.text("XY😀\n"), attributes: this.marks() });
      if (step !== undefined) left -= some;
    }
    if (this.below(3) === 0) steps.push({ insert: "E", attributes: this.marks() });
    return steps;
  }

  edit(count) {
    const [from, other] = [this.below(count + 1), this.below(count + 1)].sort((one, two) => one - two);
    const draw = from === other ? 0 : this.below(3);
    if (draw === 1) return { op: "delete", at: from, count: other - from };
    if (draw === 2) return { op: "mark", from, to: other, mark: MARKS[this.below(MARKS.length)], isOn: this.below(2) === 0 };
    return { op: "insert", at: from, runs: [{ text: this.text("pq😀"), marks: this.marks() }] };
  }
}

test("what waits behind others' steps, and these behind it, lead to the same text", () => {
  const chance = new Chance(1);
  for (let round = 0; round < 5_000; round += 1) {
    const before = Array.from({ length: chance.below(9) }, (_, id) => ({ id, text: "a", marks: chance.marks() }));
    let pending = [];
    for (let left = chance.below(5); left > 0; left -= 1) pending = withEdits(pending, [chance.edit(behind(before, pending).length)]);
    const steps = chance.steps(before.length);
    const moved = behindOthers(pending, steps);
    assert.deepEqual(behind(behindSteps(before, steps), moved.pending), behindSteps(behind(before, pending), moved.steps));
  }
});

/** Each character of runs, with its marks. */
function charactersIn(runs) {
  return runs.flatMap(({ text, marks }) => [...text].map((letter) => ({ text: letter, marks })));
}

test("a text that is kept as runs is the same behind steps, behind edits and in parts", () => {
  const chance = new Chance(3);
  for (let round = 0; round < 2_000; round += 1) {
    const runs = Array.from({ length: chance.below(4) }, () => ({ text: chance.text("ab😀\n"), marks: chance.marks() }));
    const before = charactersIn(runs);
    const steps = chance.steps(before.length);
    assert.deepEqual(charactersIn(texts.behindSteps(runs, steps)), behindSteps(before, steps));
    let pending = [];
    for (let left = chance.below(4); left > 0; left -= 1) pending = withEdits(pending, [chance.edit(behind(before, pending).length)]);
    assert.deepEqual(charactersIn(texts.behindEdits(runs, pending)), behind(before, pending));
    const [from, to] = [chance.below(before.length + 1), chance.below(before.length + 1)].sort((one, two) => one - two);
    assert.deepEqual(charactersIn(texts.runsBetween(runs, from, to)), before.slice(from, to));
  }
  assert.throws(() => texts.behindSteps([{ text: "a", marks: NONE }], [{ retain: 2 }]), RangeError);
});

test("what is put in stays behind its neighbour", () => {
  const insert = { op: "insert", at: 2, runs: [{ text: "x", marks: NONE }] };
  const at = (...steps) => crossed(insert, steps).edits.map((edit) => edit.at);
  assert.deepEqual(at({ retain: 2 }, { insert: "yz", attributes: NONE }), [2]);
  assert.deepEqual(at({ retain: 1 }, { insert: "yz", attributes: NONE }), [4]);
  assert.deepEqual(at({ retain: 1 }, { insert: "y", attributes: NONE }, { delete: 1 }), [2]);
  assert.deepEqual(at({ delete: 5 }), [0]);
});

test("what others put in between stays, and is marked with what is around it", () => {
  const steps = [{ retain: 2 }, { insert: "y", attributes: NONE }];
  assert.deepEqual(crossed({ op: "delete", at: 1, count: 2 }, steps).edits, [
    { op: "delete", at: 3, count: 1 },
    { op: "delete", at: 1, count: 1 },
  ]);
  const marking = { op: "mark", from: 1, to: 3, mark: STRONG, isOn: true };
  assert.deepEqual(crossed(marking, steps), {
    edits: [{ ...marking, to: 4 }],
    steps: [{ retain: 2 }, { insert: "y", attributes: BOLD }, { retain: 1 }],
  });
  assert.deepEqual(crossed(marking, [{ retain: 1 }, { delete: 2 }]).edits, []);
});

test("what is typed on waits as one edit, up to 256 characters, but for the first", () => {
  const typed = (at, text) => ({ op: "insert", at, runs: [{ text, marks: NONE }] });
  const first = pendingOf([typed(0, "a")]);
  const one = withEdits(withEdits(first, [typed(1, "b")]), [typed(2, "😀")]);
  assert.deepEqual(one.map(({ edit }) => edit.runs.map(({ text }) => text)), [["a"], ["b😀"]]);
  assert.equal(withEdits(one, [typed(3, "c")])[1].token, one[1].token);
  assert.equal(withEdits(one, [typed(2, "c")]).length, 3);
  assert.equal(withEdits(one, [typed(3, "c".repeat(255))]).length, 3);
});

test("characters that were put in come to have the marks that they are meant to have", () => {
  const edit = { op: "insert", at: 1, runs: [{ text: "xy", marks: BOLD }] };
  const all = [{ retain: 1 }, { insert: "xy", attributes: { em: true } }];
  const others = [{ delete: 1 }, { retain: 1 }, { insert: "o", attributes: NONE }];
  const now = [{ delete: 1 }, { insert: "x", attributes: { em: true } }, { insert: "o", attributes: NONE }, { insert: "y", attributes: { em: true } }];
  const meant = (from, to) => [{ text: "xy".slice(from - 1, to - 1), marks: BOLD }];
  assert.deepEqual(corrections([edit], meant, withGiven([edit], [], all)).edits, [
    { op: "mark", from: 1, to: 3, mark: EM, isOn: false },
    { op: "mark", from: 1, to: 3, mark: STRONG, isOn: true },
  ]);
  const left = corrections([edit], meant, withGiven([edit], others, now));
  assert.deepEqual(left.edits.map(({ from, to, isOn }) => [from, to, isOn]), [[0, 1, false], [2, 3, false], [0, 1, true], [2, 3, true]]);
  assert.deepEqual(left.steps, [{ delete: 1 }, { retain: 1 }, { insert: "o", attributes: NONE }, { retain: 1 }]);
});

/** The steps that lead from characters to others. Those of these that are `own` come with marks that they aren't meant to have. */
function leading(before, after, marks) {
  const steps = [];
  let old = 0;
  for (const { id, own, text } of after) {
    if (id === undefined) steps.push({ insert: text, attributes: own ? marks : NONE });
    else steps.push({ delete: id - old }, { retain: 1 });
    if (id !== undefined) old = id + 1;
  }
  return [...steps, { delete: before.length - old }];
}

test("so do those of several edits that were made at once, and only those", () => {
  const chance = new Chance(2);
  for (let round = 0; round < 3_000; round += 1) {
    const before = Array.from({ length: chance.below(9) }, (_, id) => ({ id, text: "a", marks: NONE }));
    let pending = [];
    for (let left = 1 + chance.below(6); left > 0; left -= 1) pending = withEdits(pending, [chance.edit(behind(before, pending).length)]);
    const edits = pending.map(({ edit }) => edit);
    const made = behind(before, pending).map((it) => (it.id === undefined ? { ...it, own: true } : it));
    const others = chance.steps(made.length).map((step) => (step.insert === undefined ? { ...step, attributes: undefined } : { ...step, attributes: NONE }));
    const now = behindSteps(made, others);
    const marks = chance.marks();
    const steps = withGiven(edits, others, leading(before, now, marks));
    const given = behindSteps(made, steps);
    assert.deepEqual(given, now.map((it) => (it.own ? { ...it, marks } : it)));
    const left = corrections(edits, (from, to) => made.slice(from, to), steps);
    assert.deepEqual(behind(given, pendingOf(left.edits)), now);
    assert.deepEqual(behindSteps(made, left.steps), now);
  }
});

test("what is told is taken only if it leads to what is read", () => {
  const characters = (text) => [...text].map((letter) => ({ text: letter, marks: NONE }));
  const bold = [...characters("xa"), { text: "b", marks: BOLD }];
  const told = [{ insert: "x", attributes: NONE }, { retain: 2 }];
  const read = [{ insert: "x", attributes: NONE }, { retain: 1 }, { retain: 1, attributes: BOLD }];
  assert.deepEqual(fitted(characters("ab"), bold, told), { steps: read, isTold: true });
  for (const wrong of [[{ insert: "y", attributes: NONE }], [{ retain: 3 }], [{ delete: 1 }], undefined]) {
    assert.equal(fitted(characters("ab"), bold, wrong).isTold, false);
    assert.deepEqual(behindSteps(characters("ab"), fitted(characters("ab"), bold, wrong).steps), bold);
  }
});
