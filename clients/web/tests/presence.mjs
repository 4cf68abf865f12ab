// The relay of carets without a browser: what it tells whom, and that no page makes it grow.

import assert from "node:assert/strict";
import { EventEmitter, once } from "node:events";

import { Files } from "../src/files.js";
import { webSockets } from "../src/packages.js";
import { PageServer } from "../src/page_server.js";
import { Presence } from "../src/presence.js";
import { pause } from "./page.mjs";
import { test } from "./timed.mjs";

const { WebSocket } = webSockets();

const REPLICA = "3f2b8a54-9c1d-4e77-8a30-5d6c7b8e9f01";
const CARET = { name: "alice", colour: 0, document: 3, head: `a5@${REPLICA}`, tail: `b17@${REPLICA}` };

/** What isn't a name, a colour or a place. */
const NO_NAMES = ["", "x".repeat(25), "a\nb", "a\u202eb", 7, undefined];
const NO_COLOURS = [-1, 6, 0.5, "0", null, undefined];
const NO_DOCUMENTS = [0, 2 ** 32, 1.5, "3", null, undefined];
const NIL = "00000000-0000-0000-0000-000000000000";
const NO_PLACES = [
  ...["", "a0@x", `a05@${REPLICA}`, `c5@${REPLICA}`, `a5@${REPLICA.toUpperCase()}`, `a5@${REPLICA}x`],
  ...[`a999999999999999@${REPLICA}`, `a1@${NIL}`, 5, undefined],
];

/** What isn't a caret, each with one thing wrong. */
const WRONG = [
  ...["", "null", "[]", "7", "{", '"caret"', "{}"],
  ...NO_NAMES.map((name) => ({ ...CARET, name })),
  ...NO_COLOURS.map((colour) => ({ ...CARET, colour })),
  ...NO_DOCUMENTS.map((document) => ({ ...CARET, document })),
  ...NO_PLACES.flatMap((anchor) => [{ ...CARET, head: anchor }, { ...CARET, tail: anchor }]),
];

/** An editor's connection, with what it is told: the carets that there are by now. */
class Editor {
  carets = new Map();
  told = 0;

  constructor(web) {
    this.web = web;
    web.on("error", () => {});
    web.on("message", (data) => this.#hear(JSON.parse(data)));
    this.ended = new Promise((done) => web.on("close", done));
  }

  #hear(news) {
    this.told += 1;
    for (const { number, ...caret } of news) {
      if (caret.head === undefined) this.carets.delete(number);
      else this.carets.set(number, caret);
    }
  }

  say(caret) {
    this.web.send(typeof caret === "string" ? caret : JSON.stringify(caret));
  }

  get shown() {
    return [...this.carets.values()];
  }

  /** Waits until it is told of just these carets, and gives the milliseconds for which it waited. */
  async sees(...carets) {
    const begun = Date.now();
    while (JSON.stringify(this.shown) !== JSON.stringify(carets)) {
      assert(Date.now() - begun < 10_000, `in vain was waited for ${JSON.stringify(carets)}: there is ${JSON.stringify(this.shown)}`);
      await pause(10);
    }
    return Date.now() - begun;
  }
}

/** Runs a test over a server of the page, given what makes an editor's connection. */
async function withRelay(work) {
  const presence = new Presence();
  const server = new PageServer({ files: new Files(), doors: { control: () => {}, presence: (web) => presence.take(web) } });
  await server.listen();
  const origin = server.address.slice(0, -1);
  try {
    await work(async (headers = { Origin: origin }) => {
      const editor = new Editor(new WebSocket(`${origin.replace("http", "ws")}/presence`, { headers }));
      await Promise.race([once(editor.web, "open").catch(() => {}), editor.ended]);
      return editor;
    });
  } finally {
    server.close();
  }
}

test("a caret is told to all others, to those who come later too, and not to its own editor", () =>
  withRelay(async (come) => {
    const [alice, bob] = [await come(), await come()];
    alice.say(CARET);
    await bob.sees(CARET);
    const moved = { ...CARET, head: "start", tail: "end" };
    alice.say(moved);
    await bob.sees(moved);
    const late = await come();
    await late.sees(moved);
    bob.say({ ...CARET, name: "bob", more: "of it" });
    await alice.sees({ ...CARET, name: "bob" });
    assert.deepEqual(alice.shown.length, 1);
  }));

test("a caret is gone three seconds after its page is, or after it was said last", () =>
  withRelay(async (come) => {
    const [alice, bob, silent] = [await come(), await come(), await come()];
    silent.say({ ...CARET, name: "silent" });
    alice.say(CARET);
    await bob.sees({ ...CARET, name: "silent" }, CARET);
    for (let second = 0; second < 2; second += 1) {
      await pause(1_000);
      alice.say(CARET);
    }
    alice.web.terminate();
    const untilSilent = await bob.sees(CARET);
    assert(untilSilent > 500 && untilSilent < 1_500, `${untilSilent} ms and two seconds`);
    const untilGone = untilSilent + (await bob.sees());
    assert(untilGone > 2_500 && untilGone < 3_500, `${untilGone} ms`);
    silent.say(CARET);
    await bob.sees(CARET);
  }));

test("what is said again isn't told again, and much of it is told together", () =>
  withRelay(async (come) => {
    const [alice, bob] = [await come(), await come()];
    for (let count = 1; count <= 40; count += 1) alice.say({ ...CARET, head: `a${count}@${REPLICA}` });
    await bob.sees({ ...CARET, head: `a40@${REPLICA}` });
    assert(bob.told < 10, `told ${bob.told} times`);
    await pause(1_100);
    const { told } = bob;
    for (let second = 0; second < 2; second += 1) {
      alice.say({ ...CARET, head: `a40@${REPLICA}` });
      await pause(300);
    }
    assert.equal(bob.told, told);
  }));

test("what is no caret isn't told", () =>
  withRelay(async (come) => {
    const bob = await come();
    for (const wrong of WRONG) {
      const rude = await come();
      rude.say(wrong);
      rude.say(`\u0000${JSON.stringify(CARET)}`);
      rude.web.close();
    }
    const alice = await come();
    alice.say({ ...CARET, name: "Ωμέγα 🦊" });
    await bob.sees({ ...CARET, name: "Ωμέγα 🦊" });
    assert.equal(bob.told, 1);
  }));

test("a page that sends too much or too long is cut off, and the others go on", () =>
  withRelay(async (come) => {
    const [alice, bob] = [await come(), await come()];
    const [fast, long] = [await come(), await come()];
    long.say({ ...CARET, name: "x".repeat(2_000) });
    await long.ended;
    for (let count = 1; count <= 1_000; count += 1) fast.say({ ...CARET, head: `a${count}@${REPLICA}` });
    await fast.ended;
    await pause(2_000);
    alice.say(CARET);
    await pause(100);
    assert(bob.shown.length <= 2);
    await bob.sees(CARET);
  }));

test("no more than 64 carets are kept, though pages come and go", () =>
  withRelay(async (come) => {
    const bob = await come();
    for (let round = 0; round < 100; round += 1) {
      const passing = await come();
      passing.say(CARET);
      passing.web.close();
      await passing.ended;
    }
    await pause(100);
    assert.equal(bob.carets.size, 64);
    await bob.sees();
    const alice = await come();
    alice.say(CARET);
    await bob.sees(CARET);
  }));

/** A page's connection without a network, whose page reads what it is sent, or doesn't. */
class Web extends EventEmitter {
  bufferedAmount = 0;
  isOver = false;

  constructor(reads) {
    super();
    this.reads = reads;
  }

  send(text) {
    if (!this.reads) this.bufferedAmount += text.length;
  }

  terminate() {
    this.isOver = true;
    this.emit("close");
  }
}

test("a page that doesn't read is cut off before much waits for it", async () => {
  const presence = new Presence();
  const deaf = new Web(false);
  const others = [...Array(40)].map(() => new Web(true));
  for (const web of [deaf, ...others]) presence.take(web);
  for (let round = 1; round <= 40; round += 1) {
    for (const web of others) web.emit("message", JSON.stringify({ ...CARET, head: `a${round}@${REPLICA}` }));
    await pause(25);
  }
  assert(deaf.isOver);
  assert(deaf.bufferedAmount < 100_000, `${deaf.bufferedAmount} bytes`);
  assert(others.every(({ isOver }) => !isOver));
});

test("pages of other origins aren't let in", () =>
  withRelay(async (come) => {
    for (const headers of [{}, { Origin: "null" }, { Origin: "http://example.org" }]) {
      const { web, ended } = await come(headers);
      await ended;
      assert.equal(web.readyState, WebSocket.CLOSED);
    }
  }));
