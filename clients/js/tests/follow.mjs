// A document that is followed, over daemons of the real program, which PERITEXT names.

import assert from "node:assert/strict";
import { readFileSync } from "node:fs";
import { test } from "node:test";
import { setTimeout as pause } from "node:timers/promises";

import { Ended, connect, follow, init } from "peritext";

import { chanceEdit } from "./chance.mjs";
import { Proxy } from "./proxy.mjs";
import { program, start, withDaemon } from "./served.mjs";
import { behind, textOf, unitsOf } from "./shown.mjs";
import { numbers, withFile } from "./support.mjs";
import { soon } from "./talk.mjs";

const next = async (told) => (await soon(told.next())).value;

/** Runs a test over a daemon and a port that leads to it. */
function withProxy(work) {
  return withDaemon(async (daemon, file) => {
    const proxy = new Proxy(daemon.port);
    try {
      await work({ daemon, file, proxy, port: await proxy.listen() });
    } finally {
      proxy.close();
    }
  });
}

/** Waits until so many sessions are there. */
async function assertSessions(session, count) {
  let sessions;
  for (let tries = 0; sessions !== count && tries < 100; tries += 1) {
    await pause(tries && 20);
    ({ sessions } = await session.peers());
  }
  assert.equal(sessions, count);
}

test("it has two places, which are free once its loop is left", () =>
  withDaemon(async ({ port }) => {
    const session = await connect(port);
    await session.document(1).insert(0, "a😀");
    for await (const told of follow(port, 1)) {
      assert.deepEqual(told, { reset: [{ text: "a😀" }], text: "a😀", rev: 2 });
      await assertSessions(session, 3);
      break;
    }
    await assertSessions(session, 1);
    const controller = new AbortController();
    const told = follow(port, 1, { signal: controller.signal });
    await next(told);
    await assertSessions(session, 3);
    const last = told.next();
    controller.abort();
    await assert.rejects(soon(last), { name: "AbortError" });
    await assertSessions(session, 1);
    await session.close();
  }));

test("who looks seldom is given one change, for one request", () =>
  withProxy(async ({ daemon, proxy, port }) => {
    const session = await connect(daemon.port);
    const told = follow(port, 1);
    assert.deepEqual(await next(told), { reset: [], text: "", rev: 0 });
    for (let count = 0; count < 50; count += 1) await session.document(1).insert(count, "😀");
    await pause(200);
    assert.deepEqual(await next(told), { steps: [{ insert: "😀".repeat(50) }], rev: 50 });
    assert.deepEqual(proxy.asked.sort(), ["changes", "changes", "status", "watch"]);
    await session.document(1).delete(1, 1);
    assert.deepEqual(await next(told), { steps: [{ retain: 2 }, { delete: 2 }], rev: 51 });
    told.close();
    await session.close();
  }));

test("a daemon that is started again goes on, with one change or anew", () =>
  withDaemon(async (daemon, file) => {
    const session = await connect(daemon.port);
    const text = session.document(1);
    await text.insert(0, "ab");
    const told = follow(daemon.port, 1);
    await next(told);
    await daemon.kill();
    const second = await start(file, daemon.port);
    await text.insert(1, "x");
    assert.deepEqual(await next(told), { steps: [{ retain: 1 }, { insert: "x" }], rev: 3 });
    await text.insert(0, "y");
    await second.kill();
    const third = await start(file, daemon.port);
    // What was edited before can't be told any more.
    assert.deepEqual(await next(told), { reset: [{ text: "yaxb" }], text: "yaxb", rev: 4 });
    const over = follow(daemon.port, 1, { retry: null });
    await next(over);
    await session.stop();
    await assert.rejects(soon(over.next()), Ended);
    const last = told.next();
    last.catch(() => {});
    told.close();
    assert.deepEqual(await last, { done: true, value: undefined });
    await third.ended;
  }));

test("another file on the same port begins anew, also under the same number", () =>
  withDaemon(async (daemon) =>
    withFile(async (other) => {
      const [session, told] = [await connect(daemon.port), follow(daemon.port, 1)];
      await session.document(1).insert(0, "abc");
      assert.equal((await next(told)).text, "abc");
      await session.close();
      await daemon.kill();
      await init(other, { program });
      const served = await start(other);
      const editor = await connect(served.port);
      await editor.document(1).insert(0, "xyz");
      await editor.stop();
      await served.ended;
      const again = await start(other, daemon.port);
      assert.deepEqual(await next(told), { reset: [{ text: "xyz" }], text: "xyz", rev: 3 });
      told.close();
      await again.kill();
    }),
  ));

test("what a peer does is told", () =>
  withDaemon(async (daemon) =>
    withFile(async (other) => {
      await init(other, { program });
      const peer = await start(other, undefined, undefined, daemon.peers);
      const [one, two] = [await connect(daemon.port), await connect(peer.port)];
      const told = follow(daemon.port, 1);
      await next(told);
      let units = [];
      for (const [at, session] of [one, two, two, one, two].entries()) {
        const there = session.document(1);
        while ((await there.text()).length !== at) await pause(5);
        await there.insert(0, "abcde"[at]);
        units = behind(units, await next(told));
      }
      assert.equal(textOf(units), "edcba");
      told.close();
      for (const session of [one, two]) await session.close();
      await peer.kill();
    }),
  ));

/** A text that is there once. */
function letter(below, turn) {
  return String.fromCodePoint(0x1f300 + turn, 0x4e00 + turn).slice(0, 2 + below(2));
}

/** Reads what is told, slowly at times, up to a number that is the last one. */
async function readAll(told, below, seen, isLast) {
  let units = [];
  for await (const change of told) {
    units = behind(units, change);
    seen.push({ rev: change.rev, units, isReset: change.reset !== undefined, text: told.text });
    if (isLast(change.rev)) break;
    if (below(4) === 0) await pause(below(40));
  }
}

/** Two sessions edit by chance, connections are cut, and the daemon is killed and started again. */
function play(seed, turns) {
  return withProxy(async ({ daemon, file, proxy, port }) => {
    const [below, slow] = [numbers(seed), numbers(seed + 1_000)];
    const texts = (await Promise.all([connect(daemon.port), connect(daemon.port)])).map((session) => session.document(1));
    const shown = new Map([[0, []]]);
    const seen = [];
    let [served, last, kills, cuts] = [daemon, -1, 0, 0];
    const reader = readAll(follow(port, 1), slow, seen, (rev) => rev === last);
    // A first connection that is lost before it tells anything ends it.
    while (seen.length === 0) await pause(5);
    for (let turn = 0; turn < turns; turn += 1) {
      const text = texts[below(2)];
      const made = text.edit(chanceEdit(below, [...(await text.text())].length, letter(below, turn)));
      const draw = below(30);
      if (draw < 3) proxy.cut((isWatch) => draw === 2 || isWatch === (draw === 0));
      if (draw < 3) cuts += 1;
      if (draw === 3) {
        await served.kill();
        served = await start(file, daemon.port);
        kills += 1;
      }
      await made;
      const { spans, rev } = await text.readSpans();
      shown.set(rev, spans);
    }
    await pause(20);
    // The reader may be told of the last edit before its answer is here.
    last = (await texts[0].readSpans()).rev + 1;
    assert.equal(await texts[0].insert(0, "!"), last);
    shown.set(last, await texts[0].spans());
    await soon(reader, 20_000);
    for (const { rev, units, text } of seen) {
      assert.deepEqual(units, unitsOf(shown.get(rev)), `history ${seed}, number ${rev}`);
      assert.equal(text, textOf(units));
    }
    const requests = proxy.asked.filter((op) => op === "changes").length;
    assert(requests <= proxy.told + cuts + kills, `${requests} requests for ${proxy.told} numbers`);
    assert(seen.filter(({ isReset }) => isReset).length <= 1 + kills, "a lost connection alone is no reason to begin anew");
    for (const { session } of texts) await session.close();
    await served.kill();
  });
}

for (const seed of [1, 2, 3]) test(`chance edits, cuts and kills: what is shown is what there was (${seed})`, () => play(seed, 60));

test("the example of the page is so", () =>
  withDaemon(async ({ port }) => {
    const page = readFileSync(new URL("../README.md", import.meta.url), "utf8");
    const [[, code], ...more] = page.matchAll(/^```javascript\nimport \{ connect, follow \} from "peritext";\n(.*?)^```$/gms);
    assert.equal(more.length, 0);
    const AsyncFunction = (async () => {}).constructor;
    const printed = [];
    const log = (...words) => printed.push(words);
    await soon(new AsyncFunction("connect", "follow", "console", code.replaceAll("7001", port))(connect, follow, { log }));
    assert.deepEqual(printed, [[[{ text: "The 🦊" }]], [[{ retain: 6 }, { insert: "!" }]], ["The 🦊!"]]);
  }));
