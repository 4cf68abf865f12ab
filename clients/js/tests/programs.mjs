// The examples of the project that are written in JavaScript, over a daemon of the real program, which PERITEXT names.

import assert from "node:assert/strict";
import { spawn } from "node:child_process";
import { once } from "node:events";
import { readFileSync, readdirSync } from "node:fs";
import { createRequire } from "node:module";
import { test } from "node:test";
import { fileURLToPath } from "node:url";

import { EM, connect } from "peritext";

import { chanceEdit } from "./chance.mjs";
import { freePort, start, withDaemon } from "./served.mjs";
import { LIBRARIES, numbers } from "./support.mjs";
import { pause } from "./talk.mjs";

const EXAMPLES = fileURLToPath(new URL("../../../examples/", import.meta.url));
/** Milliseconds in which what is due has to be there. */
const PATIENCE = 20_000;
const noWebSocket = hasWebSocket() ? false : "there is no WebSocket before Node 22, and node-ws isn't installed";

function hasWebSocket() {
  try {
    globalThis.WebSocket ??= createRequire(`${LIBRARIES}/`)("./ws");
    return true;
  } catch {
    return false;
  }
}

/** Waits until it holds. */
async function until(holds, words) {
  for (const end = performance.now() + PATIENCE; !(await holds()); await pause(10)) assert(performance.now() < end, words());
}

test("each of them has less than 60 lines", () => {
  const names = readdirSync(EXAMPLES).filter((name) => /\.(mjs|html|py)$/.test(name));
  assert.equal(names.length, 6);
  for (const name of names) assert(readFileSync(EXAMPLES + name, "utf8").split("\n").length <= 60, name);
});

/** Runs a test with the bot over a document, and ends the bot as Ctrl-C does. */
function withBot(work) {
  return withDaemon(async ({ port }) => {
    const bot = spawn(process.execPath, [`${EXAMPLES}quotes.mjs`, String(port), "1"], { stdio: ["ignore", "inherit", "pipe"] });
    let said = "";
    bot.stderr.on("data", (part) => (said += part));
    const session = await connect(port);
    try {
      // A session, and what the bot has: a session, and what it follows by.
      await until(async () => (await session.peers()).sessions >= 4, () => said);
      await work(session.document(1), () => said);
    } finally {
      const ended = once(bot, "close");
      bot.kill("SIGINT");
      assert.deepEqual([await ended, said], [[0, null], ""]);
      await session.close();
    }
  });
}

test("the bot puts typographic quotes in the place of straight ones, with their marks", () =>
  withBot(async (document, said) => {
    await document.insert(0, `She said: "It's 'fine'", and 🦊 "went".`);
    await document.mark(10, 24, EM);
    await until(async () => (await document.text()) === "She said: “It’s ‘fine’”, and 🦊 “went”.", said);
    assert.deepEqual(await document.spans(), [
      { text: "She said: " },
      { em: true, text: "“It’s ‘fine’”," },
      { text: " and 🦊 “went”." },
    ]);
  }));

test("the bot leaves what others type meanwhile in its place", () =>
  withBot(async (document, said) => {
    const wanted = `One "two" three 'four' five.`;
    for (const [place, letter] of [...wanted].entries()) {
      await document.insert(place, letter);
      await pause(20);
    }
    // What stands before moves the places of the quotes.
    for (const letter of "Zero ".split("").reverse()) {
      await document.insert(0, letter);
      await pause(20);
    }
    await until(async () => (await document.text()) === "Zero One “two” three ‘four’ five.", said);
  }));

/** What the page's module needs of a text area, as browsers have it. */
class Area {
  value = "";
  disabled = true;
  caret = 0;
  /** What a browser would show as not handled. */
  faults = [];

  get selectionStart() {
    return this.caret;
  }

  get selectionEnd() {
    return this.caret;
  }

  setSelectionRange(start, end) {
    assert.equal(start, end);
    assert(start >= 0 && start <= this.value.length);
    this.caret = start;
  }

  /** Somebody types at the caret. */
  type(text) {
    this.value = this.value.slice(0, this.caret) + text + this.value.slice(this.caret);
    this.caret += text.length;
    this.#typed();
  }

  /** Somebody replaces a stretch. */
  replace(from, to, text) {
    this.value = this.value.slice(0, from) + text + this.value.slice(to);
    this.caret = from + text.length;
    this.#typed();
  }

  #typed() {
    this.oninput().catch((error) => this.faults.push(error));
  }
}

/** Runs a test with pages over a daemon, all of the same document. */
async function withPages(count, work) {
  const { share } = await import(`${EXAMPLES}editor.mjs`);
  const web = await freePort();
  await withDaemon(async (daemon, file) => {
    const areas = Array.from({ length: count }, () => new Area());
    for (const area of areas) share(area, web, 1).catch((error) => area.faults.push(error));
    const shown = () => areas.map(({ value, faults }) => `${JSON.stringify(value)} ${faults}`).join();
    await until(() => areas.every(({ disabled }) => !disabled), shown);
    await work(areas, (text) => until(() => areas.every(({ value }) => value === text), shown), { ...daemon, file, web });
  }, web);
}

test("pages share a text, and each caret stays with its character", { skip: noWebSocket }, () =>
  withPages(2, async ([one, other], agree, { port }) => {
    one.type("The fox");
    await agree("The fox");
    [one.caret, other.caret] = [4, 2];
    // The spaces are alike: that before the caret is the one that was there.
    const session = await connect(port);
    await session.document(1).insert(3, " 🦊 quick");
    await session.close();
    await agree("The 🦊 quick fox");
    assert.deepEqual([one.value.slice(one.caret), other.value.slice(other.caret)], ["fox", "e 🦊 quick fox"]);
    one.replace(4, 6, "🦊🦊");
    await agree("The 🦊🦊 quick fox");
    assert.equal(other.caret, 2);
    one.caret = 0;
    other.replace(0, 3, "A");
    await agree("A 🦊🦊 quick fox");
    assert.deepEqual([one.caret, other.caret], [0, 1]);
  }));

test("pages agree whatever is typed in them at once", { skip: noWebSocket }, () =>
  withPages(3, async (areas, agree, { port }) => {
    const below = numbers(7);
    for (let turn = 0; turn < 60; turn += 1) {
      const area = areas[below(areas.length)];
      const characters = [...area.value];
      const edit = chanceEdit(below, characters.length, "ab 🦊");
      if (edit.op === "insert") area.replace(...Array(2).fill(characters.slice(0, edit.at).join("").length), edit.text);
      if (edit.op === "delete") {
        const [from, gone] = [characters.slice(0, edit.at).join("").length, characters.slice(edit.at, edit.at + edit.count).join("").length];
        area.replace(from, from + gone, "");
      }
      if (below(3) === 0) await pause(below(20));
    }
    const session = await connect(port);
    let text;
    await until(async () => {
      text = await session.document(1).text();
      return areas.every(({ value }) => value === text);
    }, () => "they don't agree");
    await agree(text);
    await session.close();
  }));

test("a page goes on after its daemon was killed, with what was typed meanwhile", { skip: noWebSocket }, () =>
  withPages(2, async ([one, other], agree, { kill, file, port, web }) => {
    one.type("abc");
    await agree("abc");
    await kill();
    one.type("def");
    other.caret = 0;
    other.type("xyz");
    const again = await start(file, port, web);
    try {
      await agree("xyzabcdef");
      other.type("!");
      await agree("xyz!abcdef");
    } finally {
      await again.kill();
    }
  }));

test("the page's own script shares its area, and shows what went wrong", () => {
  const page = readFileSync(`${EXAMPLES}editor.html`, "utf8");
  const code = /<script type="module">\n(.*?)<\/script>/s.exec(page)[1].replace(/^ *import \{ share \} from "\.\/editor\.mjs";$/m, "");
  const parts = { textarea: {}, "[role=status]": {} };
  assert(page.includes("<textarea") && page.includes('role="status"'));
  const [shared, heard] = [[], []];
  const run = new Function("share", "document", "location", "addEventListener", code);
  for (const search of ["", "?web=7&doc=9"]) {
    run((...words) => shared.push(words), { querySelector: (name) => parts[name] }, { search }, (...words) => heard.push(words));
  }
  assert.deepEqual(shared, [[parts.textarea, 7201, 1], [parts.textarea, 7, 9]]);
  const [name, act] = heard[0];
  act({ reason: new Error("the session has ended") });
  assert.deepEqual([name, parts["[role=status]"].textContent], ["unhandledrejection", "the session has ended. Load the page anew; what wasn't sent stands above."]);
});
