// Edits at places that last, over the real program, which PERITEXT names, and over daemons that answer what a test says.

import assert from "node:assert/strict";
import { test } from "node:test";

import { EM, Refused, STRONG, Stale, connect, init, open } from "peritext";

import { program, withDaemon } from "./served.mjs";
import { withFile } from "./support.mjs";
import { soon, withTalk } from "./talk.mjs";

const TOKEN = "00000000-0000-4000-8000-0000000000d1";
const UNKNOWN = "00000000-0000-4000-8000-0000000000ff";
const NEVER = 2 ** 32 - 1;
/** Of two UTF-16 units each, but for the last one. */
const LONG = `${"🦊😀".repeat(350)}!`;
/** What takes more than one line: each of its characters is six bytes there. */
const LONGER = `${"\0".repeat(11_000)}!`;

/** Runs a test over a session of a new file. */
function withSession(work) {
  return withFile(async (file) => {
    await init(file, { program });
    const session = await open(file, { program });
    await work(session);
    await session.close();
  });
}

test("each edit is made beside its character, whatever was done meanwhile", () =>
  withSession(async (session) => {
    const document = session.document(1);
    await document.insert(0, "🦊 fox");
    const [after, before] = [await document.anchor(1), await document.anchor(2, "next")];
    // What is sent first is done first: nobody waits for the numbers.
    await Promise.all([document.insert(0, "> "), document.insert(after, " red"), document.insert(before, "quick ")]);
    await document.mark(after, before, EM);
    await document.unmark(before, "end", EM);
    await document.delete("start", 2);
    assert.deepEqual(await document.spans(), [{ text: "🦊" }, { em: true, text: " red quick " }, { text: "fox" }]);
    await document.insert("end", "!");
    await document.delete(before, 3);
    await document.insert(before, "cat", await document.rev());
    assert.equal(await document.text(), "🦊 red quick cat!");
    await document.edit({ op: "insert", at: "end", text: "?" });
    assert.equal(await document.text(), "🦊 red quick cat!?");
  }));

test("so it is in an action", () =>
  withSession(async (session) => {
    const document = session.document(1);
    await document.insert(0, "one two");
    const [after, before] = [await document.anchor(3), await document.anchor(4, "next")];
    const edits = [
      { op: "insert", at: 0, text: ">> " },
      { op: "delete", at: before, count: 3 },
      { op: "insert", at: before, text: "T" },
      { op: "insert", at: before, text: "WO" },
      { op: "insert", at: after, text: "2" },
      { op: "insert", at: after, text: "1" },
      { op: "mark", from: after, to: "end", ...STRONG },
    ];
    const rev = await document.action(edits, { token: TOKEN });
    assert.deepEqual(await document.spans(), [{ text: ">> one" }, { strong: true, text: "12 TWO" }]);
    assert.equal(await document.action(edits, { token: TOKEN }), rev);
  }));

test("a long text is put in as a whole, wherever it is", () =>
  withSession(async (session) => {
    let number = 0;
    const content = "ab😀";
    for (const [at, side] of [[0, "previous"], [1, "previous"], [1, "next"], [3, "next"], [3, "previous"], [0, "next"]]) {
      for (const text of [LONG.slice(0, 512), LONG]) {
        const document = session.document((number += 1));
        const rev = await document.insert(0, content);
        assert.equal(await document.insert(await document.anchor(at, side), text), rev + [...text].length);
        assert.equal(await document.text(), [...content].slice(0, at).join("") + text + [...content].slice(at).join(""));
        await document.delete("start", [...text].length + 3);
        assert.equal(await document.text(), "");
      }
    }
  }));

test("so is one that takes several lines, and among others of an action", () =>
  withSession(async (session) => {
    for (const [number, long] of [LONG, LONGER].entries()) {
      const document = session.document(number + 1);
      await document.insert(0, "abcdef");
      const [after, before] = [await document.anchor(3), await document.anchor(4, "next")];
      const edits = [
        { op: "insert", at: "start", text: LONG },
        { op: "insert", at: after, text: `${long}.` },
        { op: "insert", at: before, text: "?" },
        { op: "insert", at: before, text: long },
        { op: "insert", at: after, text: "[" },
        { op: "mark", from: after, to: before, ...EM },
        { op: "delete", at: "start", count: 701 },
        { op: "delete", at: before, count: 1 },
        { op: "insert", at: "end", text: LONG },
      ];
      await document.action(edits, { parted: true });
      assert.deepEqual(await document.spans(), [{ text: "abc" }, { em: true, text: `[${long}.d?${long}` }, { text: `f${LONG}` }]);
    }
    const document = session.document(3);
    await document.insert(0, "abc");
    const place = await document.anchor(2);
    for (const _ of [1, 2]) assert.equal(await document.insert(place, LONGER, { token: TOKEN }), 3 + LONGER.length);
    await document.delete(place, LONGER.length);
    assert.equal(await document.text(), "abc");
  }));

test("refusals say what they are about", () =>
  withSession(async (session) => {
    const document = session.document(1);
    const rev = await document.insert(0, "abc");
    const place = await document.anchor(1);
    for (const side of "ab") {
      const unknown = `${side}1@${UNKNOWN}`;
      for (const text of ["x", LONG, LONGER]) await assert.rejects(document.insert(unknown, text), { number: 5, word: "range", at: undefined });
      for (const count of [1, 300, 3_000]) await assert.rejects(document.delete(unknown, count), { number: 5 });
      for (const text of ["x", LONG]) {
        const edits = [{ op: "insert", at: "end", text }, { op: "insert", at: unknown, text }];
        await assert.rejects(document.action(edits), { number: 5, at: 1 });
      }
    }
    for (const count of [4, 400, 4_000]) await assert.rejects(document.delete("start", count), { number: 5 });
    for (const [from, to] of [["start", "start"], ["end", "start"], [1, place]]) await assert.rejects(document.mark(from, to, EM), { number: 5 });
    for (const text of ["x", LONG, LONGER]) await assert.rejects(document.insert(place, text, rev - 1), Stale);
    for (const broken of ["a7", "START", "", null, `a0@${UNKNOWN}`]) {
      for (const text of ["x", LONG]) await assert.rejects(document.insert(broken, text), { number: 4, message: /`at` has to be .*, or a place that lasts; mend/ });
    }
    await assert.rejects(document.action([{ op: "insert", at: place, text: LONG }, { op: "delete", at: 0 }]), { number: 4, message: /`count` of one of the `edits`/ });
    await assert.rejects(document.action([{ op: "insert", at: place, text: LONGER }]), RangeError);
    assert.deepEqual([await document.text(), await document.rev()], ["abc", rev]);
    await assert.rejects(document.insert(place, LONG, { signal: AbortSignal.abort("given up") }), (error) => error === "given up");
    // A reading counts in its own text.
    await assert.rejects((await document.read()).insert(place, "x"), RangeError);
    const edit = { op: "insert", doc: 1, at: "end", text: "x", token: TOKEN };
    assert.match(new Refused(4, "field", edit).message, /an older program takes no places that last in edits; start one/);
    assert.match(new Refused(4, "field", { op: "edits", doc: 1, edits: [{ op: "insert", at: "end", text: "x" }] }).message, /takes no places that last in edits/);
  }));

test("nobody who types meanwhile makes it stale", () =>
  withDaemon(async ({ port }) => {
    const sessions = [await connect(port), await connect(port)];
    const [one, other] = sessions.map((session) => session.document(1));
    await one.insert(0, "[]".repeat(20));
    const places = await one.anchors(places20());
    let isOver = false;
    const typing = (async () => {
      while (!isOver) await other.insert(0, "-");
    })();
    for (const [number, place] of places.entries()) {
      await one.insert(place, String(number));
      await one.action([{ op: "insert", at: place, text: "(" }, { op: "mark", from: "start", to: place, ...EM }]);
    }
    isOver = true;
    await typing;
    const wanted = places.map((_, number) => `[(${number}]`).join("");
    assert.equal((await one.text()).replace(/^-*/, ""), wanted);
    for (const session of sessions) await session.close();
  }));

function places20() {
  return Array.from({ length: 20 }, (_, number) => 2 * number + 1);
}

const STALE = { ok: false, code: 6, error: "stale" };

function standing(number, rev) {
  return { ok: true, places: [number], rev };
}

/** How many operations the edits of a line are. */
function sizeOf({ edits }) {
  return edits.reduce((sum, { text, count = 1 }) => sum + (text === undefined ? count : [...text].length), 0);
}

/** What a line is answered that is made at the `rev` that it names, or so much later. */
function made(request, more = 0) {
  return { ok: true, rev: request.rev + sizeOf(request) + more };
}

/** Runs a test over a document whose session is answered so, and has what it was asked. In place of null the connection ends. */
function withAnswers(answers, work) {
  const asked = [];
  const left = [...answers];
  const talk = async (socket, lines) => {
    for await (const line of { [Symbol.asyncIterator]: () => lines }) {
      const request = JSON.parse(line);
      asked.push(request);
      const answer = left.length > 0 ? left.shift() : STALE;
      if (answer === null) return;
      socket.write(`${JSON.stringify(typeof answer === "function" ? answer(request) : answer)}\n`);
    }
  };
  return withTalk(talk, async (port) => {
    const session = await connect(port, { retry: 500 });
    await soon(work(session.document(1), asked));
    await session.close();
  });
}

const placesOf = ({ edits }) => edits.map(({ at }) => at);

test("what fits one line goes as it is", () =>
  withAnswers(Array(3).fill({ ok: true, rev: 9 }), async (document, asked) => {
    const place = `a1@${UNKNOWN}`;
    await Promise.all([document.insert("end", LONG), document.insert("start", LONG), document.delete(place, 600)]);
    assert.deepEqual(asked.map(placesOf), [["end", "end", "end"], [0, 256, 512], [place, place, place]]);
    assert.deepEqual(asked.map(({ rev }) => rev), [undefined, undefined, undefined]);
  }));

test("a long text after a character is made where that was asked for", () =>
  withAnswers([standing(7, 20), STALE, standing(9, 21), made], async (document, asked) => {
    assert.equal(await document.insert(`a1@${UNKNOWN}`, LONG), 722);
    assert.deepEqual(asked.map(({ op }) => op), ["places", "edits", "places", "edits"]);
    const lines = [asked[1], asked[3]];
    assert.deepEqual(lines.map(({ rev }) => rev), [20, 21]);
    assert.deepEqual(lines.map(placesOf), [[7, 263, 519], [9, 265, 521]]);
    // A line whose answer was lost may be made after all.
    assert.equal(new Set(lines.map(({ token }) => token)).size, 1);
  }));

test("it is stale in the end", () =>
  withAnswers(Array.from({ length: 8 }, () => [standing(7, 20), STALE]).flat(), async (document, asked) => {
    await assert.rejects(document.insert(`a1@${UNKNOWN}`, LONG), Stale);
    assert.equal(asked.length, 16);
  }));

test("further lines are made by numbers, and parted as before when they are sent again", async () => {
  const long = "x".repeat(70_000);
  let tokens;
  let after;
  await withAnswers([standing(7, 20), made, made], async (document, asked) => {
    assert.equal(await document.insert("end", long, { token: TOKEN }), 70_020);
    const lines = asked.slice(1);
    after = 20 + sizeOf(lines[0]);
    assert.deepEqual(lines.flatMap(placesOf), PLACES_FROM_7);
    assert.deepEqual(lines.map(({ rev }) => rev), [20, after]);
    tokens = lines.map(({ token }) => token);
  });
  // What comes after a line that was made then is known, or stale.
  await withAnswers([standing(1_000_007, 80_000), { ok: true, rev: after }, STALE], async (document, asked) => {
    await assert.rejects(document.insert("end", long, { token: TOKEN }), Stale);
    assert.deepEqual(asked.slice(1).map(({ token, rev }) => [token, rev]), [[tokens[0], 80_000], [tokens[1], NEVER]]);
  });
});

/** Where the parts of 70,000 characters go from the number 7 on. */
const PLACES_FROM_7 = Array.from({ length: 274 }, (_, piece) => 7 + 256 * piece);

test("a line that another call made in a later text isn't one of this", async () => {
  for (const more of [-20, -1, 1, 10]) {
    await withAnswers([standing(7, 20), (request) => made(request, more), STALE], async (document, asked) => {
      await assert.rejects(document.insert("end", "x".repeat(70_000), { token: TOKEN }), Stale);
      assert.deepEqual(asked.slice(1).map(({ rev }) => rev), [20, NEVER]);
    });
  }
});

test("each kind of edit counts as it is made", () =>
  withAnswers([{ ok: true, places: [0, 7], rev: 20 }, made, made, made], async (document, asked) => {
    const edits = [
      { op: "delete", at: "start", count: 300 },
      { op: "unmark", from: "start", to: "end", ...EM },
      { op: "mark", from: "start", to: "end", ...EM },
      { op: "insert", at: "end", text: "🦊".repeat(20_000) },
    ];
    assert.equal(await document.action(edits, { parted: true }), 20_322);
    assert.deepEqual(asked.slice(1, 3).map(({ rev }) => rev), [20, 20 + sizeOf(asked[1])]);
  }));

test("from a line that is read late it goes on where that was made", () => {
  const late = (request) => ({ ok: true, rev: 20 + sizeOf(request) });
  const answers = [standing(7, 20), null, STALE, standing(9, 21), STALE, standing(50_000, 50_000), late, made];
  return withAnswers(answers, async (document, asked) => {
    assert.equal(await document.insert("end", "x".repeat(70_000)), 70_020);
    const lines = asked.filter(({ op }) => op === "edits");
    assert.deepEqual(lines.map(({ rev }) => rev), [20, NEVER, 21, 50_000, 20 + sizeOf(lines[0])]);
    // By the numbers of the round in which it was made, not of a later one.
    assert.deepEqual([lines[0], lines[4]].flatMap(placesOf), PLACES_FROM_7);
    assert.equal(new Set(lines.map(({ token }) => token)).size, 2);
  });
});

test("without a token of the caller's nobody asks for what was made before", () =>
  withAnswers([standing(7, 20), (request) => made(request, 1)], async (document, asked) => {
    await assert.rejects(document.insert("end", "x".repeat(70_000)), Stale);
    assert.deepEqual(asked.map(({ op }) => op), ["places", "edits"]);
  }));

test("with a `rev` it is made in just that text", () =>
  withAnswers([{ ok: true, rev: 19 }, standing(7, 20), STALE], async (document, asked) => {
    const rev = await document.insert(0, "x");
    await assert.rejects(document.insert(`a1@${UNKNOWN}`, LONG, rev), Stale);
    assert.equal(asked[2].rev, NEVER);
  }));
