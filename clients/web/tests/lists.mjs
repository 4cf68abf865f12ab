// The lists of names and of remarks: their forms, and that two sides that write at once come to have one list, over two daemons.

import "./page_modules.mjs";
import assert from "node:assert/strict";

import { connect } from "../../js/src/node.js";
import { Ended } from "../../js/src/refusals.js";
import { NAMES as SIDES } from "../src/demo.js";
import { pause } from "./page.mjs";
import { newDemo } from "./support.mjs";
import { test } from "./timed.mjs";

const { Lines } = await import("../page/lists/lines.js");
const names = await import("../page/lists/names.js");
const remarks = await import("../page/lists/remarks.js");

const { FIRST, NAMES, REMARKS } = names;
const [ID, OTHER] = ["a", "b"].map((letter) => `${letter}0000000-0000-4000-8000-000000000000`);

/** Lines that name no text, and lines that say nothing of a comment. */
const NO_NAMES = ["", "7", "7 ", " 7 seven", "07 seven", "0 none", "1 names", "2 remarks", "4294967296 large", "x y", "-7 seven", "7  \u200b ", "7\tseven"];
const NO_REMARKS = [
  ...["", ID, `${ID}\tsays`, `${ID}\tsays\talice`, `${ID}\tsays\talice\t `, `${ID}\tsays\t\twords`, `${ID} says alice words`],
  ...[`x\tsays\talice\twords`, `${ID}\tsings\talice\tla`, `${ID}\tresolves\talice\tso`],
];

test("a line names a text, or none; of two with one number the last one counts", () => {
  for (const line of NO_NAMES) assert.equal(names.namedIn(line), undefined, line);
  assert.deepEqual(names.namedIn("7  seven\u202e  deadly\tsins "), { number: 7, name: "seven deadly sins" });
  const texts = names.textsIn(["8 eight", ...NO_NAMES, "7 seven", "9 nine", "7 Seven"]);
  const first = { number: FIRST, name: "First text" };
  assert.deepEqual(texts, [first, { number: 8, name: "eight" }, { number: 9, name: "nine" }, { number: 7, name: "Seven" }]);
  assert.deepEqual(names.textsIn(["8 eight", `${FIRST} Notes`]), [{ number: FIRST, name: "Notes" }, { number: 8, name: "eight" }]);
  assert.equal(names.nameOf("x".repeat(99)).length, names.LONGEST);
});

test("texts of one name are told apart", () => {
  const texts = ["a", "b", "a", "a (2)", "a"].map((name, index) => ({ number: index + 4, name }));
  assert.deepEqual(names.toldApart(texts).map(({ name }) => name), ["a", "b", "a (3)", "a (2)", "a (4)"]);
});

test("a line is a remark, or none; what was written comes out again", () => {
  for (const line of NO_REMARKS) assert.equal(remarks.remarkIn(line), undefined, line);
  for (const words of ["one\ntwo", "a\\n b \\ c", "tabs\tand \\\\n", "🦊"]) {
    const remark = { id: ID, kind: "says", author: "alice", words };
    assert.equal(remarks.lineOf(remark).includes("\n"), false);
    assert.deepEqual(remarks.remarkIn(remarks.lineOf(remark)), remark);
  }
  const turn = (kind, author) => remarks.lineOf({ id: ID, kind, author });
  const says = (id, words) => remarks.lineOf({ id, kind: "says", author: "bob", words });
  const lines = [says(ID, "one"), turn("resolves", "alice"), "broken", says(OTHER, "two"), turn("reopens", "bob"), says(ID, "three"), turn("resolves", "bob")];
  const threads = remarks.threadsIn(lines);
  assert.deepEqual(threads.get(ID), { said: [{ author: "bob", words: "one" }, { author: "bob", words: "three" }], isResolved: true, by: "bob" });
  assert.deepEqual(threads.get(OTHER), { said: [{ author: "bob", words: "two" }], isResolved: false, by: "" });
});

/** Both sides of a demo that are parted, each with a list and with a document in which anybody may write anything. */
async function parted(demo, number) {
  await demo.start();
  demo.link.part();
  return Promise.all(
    SIDES.map(async (name) => {
      const session = await connect(demo.daemon(name).ports.sessions, { retry: null });
      const document = session.document(number);
      const list = new Lines(number, { onChange: () => {}, onError: (error) => assert(error instanceof Ended, error) });
      await list.over(document);
      return { session, document, list };
    }),
  );
}

/** Joins both sides, and waits until each has what the other one did. */
async function joined(demo, sides) {
  demo.link.join();
  for (const end = Date.now() + 30_000; ; await pause(50)) {
    const texts = await Promise.all(sides.map(({ document }) => document.text()));
    if (texts[0] === texts[1] && texts[0] !== "") break;
    assert(Date.now() < end, JSON.stringify(texts));
  }
  for (const { list } of sides) await list.pull();
  demo.link.part();
}

function one(list) {
  return list[Math.floor(list.length * Math.random())];
}

/** Writes something into an empty line, as another program may; what comes next may be put in there too, at the other side. */
async function scribble({ document, list }, words) {
  await list.settled();
  const text = await document.text();
  const places = [...text.matchAll(/^$/gm)].map(({ index }) => index);
  await document.insert(one(places), words);
  await list.pull();
}

test("two sides that name texts at once come to have one list of names; nothing that was named is lost, whatever others write", async () => {
  const demo = newDemo();
  const sides = await parted(demo, NAMES);
  const called = new Map();
  for (let round = 0; round < 6; round += 1) {
    for (const [index, side] of sides.entries()) {
      for (let times = 0; times < 4; times += 1) {
        const known = names.textsIn(side.list.lines);
        const isNew = known.length < 3 || Math.random() < 0.4;
        const number = isNew ? names.newNumber(known) : one(known).number;
        const name = `${["alice", "bob"][index]} ${round} ${times}`;
        side.list.put(names.lineOf({ number, name }), (line) => names.namedIn(line)?.number === number);
        called.set(number, [...(called.get(number) ?? []), name]);
        if (Math.random() < 0.3) await scribble(side, one(["junk", "12", "x\ny", " ", "0 zero"]));
      }
      await side.list.settled();
    }
    await joined(demo, sides);
    const [mine, theirs] = sides.map(({ list }) => names.textsIn(list.lines));
    assert.deepEqual(mine, theirs);
    for (const [number, all] of called) {
      const found = mine.find((text) => text.number === number);
      // The last one of a side, of this round or an earlier one, and whole.
      assert(found !== undefined && all.includes(found.name), `${number} is ${found?.name}, of ${all}`);
    }
    assert.equal(mine.filter(({ number }) => number !== FIRST).length, [...called.keys()].filter((number) => number !== FIRST).length);
  }
});

test("a line that another program breaks is left out, and stays; the lines beside it are whole", async () => {
  const demo = newDemo();
  const sides = await parted(demo, NAMES);
  const [alice, bob] = sides;
  for (const line of ["7 seven", "8 eight", "9 nine"]) alice.list.put(line);
  await alice.list.settled();
  await joined(demo, sides);
  const text = await bob.document.text();
  // Within a line, at its start, at its end: while the other side replaces it, and the one before it.
  await bob.document.insert(text.indexOf("seven") + 2, "VE");
  await bob.document.insert((await bob.document.text()).indexOf("8 eight"), "EIGHT");
  await bob.document.insert((await bob.document.text()).indexOf("nine") + 4, "NINE");
  for (const [number, name] of [[7, "Seven"], [8, "Eight"]]) alice.list.put(names.lineOf({ number, name }), (line) => names.namedIn(line)?.number === number);
  await alice.list.settled();
  await joined(demo, sides);
  for (const { list, document } of sides) {
    assert.deepEqual(names.textsIn(list.lines).slice(1).map(({ number, name }) => `${number} ${name}`), ["7 Seven", "8 Eight", "9 nineNINE"]);
    for (const words of ["VE", "EIGHT"]) assert((await document.text()).includes(words), words);
  }
  await bob.document.insert((await bob.document.text()).indexOf("9 nine"), "-");
  await bob.list.pull();
  assert.deepEqual(names.textsIn(bob.list.lines).slice(1).map(({ name }) => name), ["Seven", "Eight"]);
  assert(bob.list.lines.includes("-9 nineNINE"));
});

test("two sides that comment, answer and resolve at once come to have the same threads, with each word", async () => {
  const demo = newDemo();
  const sides = await parted(demo, REMARKS);
  const said = [];
  for (let round = 0; round < 4; round += 1) {
    for (const [index, side] of sides.entries()) {
      const author = ["alice", "bob"][index];
      for (let times = 0; times < 5; times += 1) {
        const id = one([ID, OTHER]);
        const kind = one(["says", "says", "resolves", "reopens"]);
        const words = kind === "says" ? `${author} ${round}\n${times}` : undefined;
        side.list.put(remarks.lineOf({ id, kind, author, words }));
        if (words !== undefined) said.push(`${id} ${words}`);
        if (Math.random() < 0.3) await scribble(side, one(["junk", `${ID}\t`, "x\ny", "\t"]));
      }
      await side.list.settled();
    }
    await joined(demo, sides);
    const [mine, theirs] = sides.map(({ list }) => [...remarks.threadsIn(list.lines)]);
    assert.deepEqual(mine, theirs);
    const words = mine.flatMap(([id, thread]) => thread.said.map((remark) => `${id} ${remark.words}`));
    assert.deepEqual(words.toSorted(), said.toSorted());
    // What one side said stands in its order.
    for (const author of ["alice", "bob"]) for (const id of [ID, OTHER]) assert.deepEqual(of(words, id, author), of(said, id, author));
  }
});

/** What an author said in a thread. */
function of(all, id, author) {
  return all.filter((words) => words.startsWith(`${id} ${author}`));
}

test("what is written while a daemon is killed waits, and is there once", async () => {
  const demo = newDemo();
  const [side] = await parted(demo, NAMES);
  side.list.put("7 seven");
  await side.list.settled();
  const { length } = side.list.lines;
  demo.daemon(SIDES[0]).kill();
  side.list.put("8 eight");
  side.list.put("7 Seven", (line) => line === "7 seven");
  assert.equal(side.list.waiting > 0, true);
  while (demo.daemon(SIDES[0]).state !== "ended") await pause(10);
  await demo.daemon(SIDES[0]).start();
  const session = await connect(demo.daemon(SIDES[0]).ports.sessions);
  await assert.rejects(side.list.pull(), Ended);
  await side.list.over(session.document(NAMES));
  assert.equal(side.list.waiting, 0);
  const lines = (await session.document(NAMES).text()).split("\n");
  assert.deepEqual(lines, side.list.lines);
  assert.deepEqual(names.textsIn(lines).slice(1).map(({ name }) => name), ["Seven", "eight"]);
  assert(lines.length > length);
  await session.close();
});
