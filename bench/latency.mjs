// How soon the page of clients/web shows what is typed and pasted: node bench/latency.mjs [FOLDER] [CHARACTERS] [KEYS]
// FOLDER is a tree with clients/web, this one unless it is given; PERITEXT names the program. It takes what `make test-demo` takes.
//
// Two linked daemons, and both editors in Chromium without a window: an empty document, then one of so many characters (none if
// it is 0). Keys in its middle with pauses of 250 to 550 ms by chance: how long the page's scripts take on their own side, how
// long it is until the first frame with the key on the other one, and what the scripts of both take of the processor. Then PASTED
// characters are pasted (50,000 unless it is given), and the page is in the background for BACKGROUND seconds (60) while somebody
// types at a daemon: what the page asks for meanwhile, and once it is seen again. At the end each aim stands with what was found.
//
// ONE=1 has both editors at a stand-in in memory (stand_in.mjs) in place of the daemons: then the page is what takes the processor's
// time. By the clock the stand-in takes its part, which is told: it grows with the text.
// PROFILE=FILE writes a profile of the page's scripts while keys are typed in the longer text.

import { writeFileSync } from "node:fs";
import { dirname, join, resolve } from "node:path";
import { fileURLToPath } from "node:url";

const [folder = join(dirname(fileURLToPath(import.meta.url)), ".."), characters = "100000", keys = "60"] = process.argv.slice(2);
const { ONE, PROFILE, PASTED = "50000", BACKGROUND = "60" } = process.env;
// All of it is one test.
process.env.TEST_SECONDS ??= "1200";
const tests = join(resolve(folder), "clients/web/tests");
// A page from before there were lists has its text in document 1.
const { FIRST = 1, Page, pause } = await import(join(tests, "page.mjs"));
const { newDemo } = await import(join(tests, "support.mjs"));
const { starts, test } = await import(join(tests, "timed.mjs"));
const { Browser } = await import(join(tests, "webdriver.mjs"));

const { StandIn } = await import("./stand_in.mjs");

const LINE = "The quick brown fox jumps over the lazy dog. \n";

/** The aims: milliseconds of script a key may take, how often its way in an empty document, milliseconds until a paste is seen, and questions a side. */
const AIMS = { script: 8, times: 1.5, paste: 1_000, questions: 1 };

/** What was found of each aim, and whether that meets it. */
const found = [];

function aim(words, value, most, unit) {
  found.push(`${value <= most ? "met" : "NOT MET"}: ${words}: ${value.toFixed(1)}${unit}, at most ${most}${unit}`);
}

function textOf(length) {
  return LINE.repeat(length / LINE.length + 1).slice(0, length);
}

/** Prints the median, the 9th decile and the most of some times. */
function tell(what, times) {
  const rising = times.toSorted((one, other) => one - other);
  const at = (part) => rising[Math.floor(part * (rising.length - 1))].toFixed(1);
  console.log(`${what}: median ${at(0.5)} ms, 9th decile ${at(0.9)}, most ${at(1)} (${rising.length})`);
  return Number(at(0.5));
}

/** Opens the page in a browser, with both editors at a stand-in if one is given. */
async function opened(standIn) {
  const demo = newDemo();
  const address = await demo.start();
  const page = new Page(await Browser.start(), demo, address);
  if (standIn !== undefined) {
    const port = await standIn.listen();
    starts(() => standIn.close());
    const ports = ["alice", "bob"].map((name) => demo.daemon(name).ports.web).join("|");
    const there = `String(url).replace(/:(${ports})\\//, ":${port}/")`;
    await page.browser.before(`WebSocket = class extends WebSocket { constructor(url) { super(${there}); } };`);
  }
  await page.browser.open(address);
  await page.isRead();
  return page;
}

/** Notes when a key goes down at alice, when her page has nothing left to do for it, and when bob's text has it on the screen. */
function watch() {
  const isWatched = window.keys !== undefined;
  window.keys = [];
  if (isWatched) return;
  const [own, other] = ["alice", "bob"].map((id) => document.querySelector(`#${id} .ProseMirror`));
  own.addEventListener("keydown", () => window.keys.push({ at: performance.now() }), true);
  const changes = { subtree: true, childList: true, characterData: true };
  // The next task comes after all that the key's own does.
  const { port1, port2 } = new MessageChannel();
  port1.onmessage = () => window.keys.forEach((key) => (key.own ??= performance.now()));
  new MutationObserver(() => port2.postMessage(0)).observe(own, changes);
  const see = () => window.keys.forEach((key) => (key.seen ??= performance.now()));
  new MutationObserver(() => requestAnimationFrame(see)).observe(other, changes);
}

/** Types keys in the middle of alice's text, each after a pause by chance. */
async function type(page) {
  for (let key = 0; key < Number(keys); key += 1) {
    await page.browser.keys("x");
    await pause(250 + 300 * Math.random());
  }
  await page.agrees();
}

async function keysIn(page, what, standIn) {
  await page.browser.run(() => {
    const editor = document.querySelector("#alice .ProseMirror");
    editor.focus();
    const paragraph = editor.children[Math.floor(editor.childElementCount / 2)];
    getSelection().collapse(paragraph.firstChild ?? paragraph, Math.min(5, paragraph.textContent.length));
  });
  await pause(1_000);
  await page.browser.run(watch);
  const before = await page.browser.processor();
  const begun = performance.now();
  const spent = standIn?.spent;
  if (PROFILE !== undefined && what !== "nothing") writeFileSync(PROFILE, JSON.stringify(await page.browser.profile(() => type(page))));
  else await type(page);
  const after = await page.browser.processor();
  const times = (await page.browser.run(() => window.keys)).filter(({ own, seen }) => own !== undefined && seen !== undefined);
  tell(`in ${what}, a key's scripts on its own side`, times.map(({ at, own }) => own - at));
  const seen = tell(`in ${what}, a key until it is on the other side's screen`, times.map(({ at, seen }) => seen - at));
  const each = (part) => ((after[part] - before[part]) / times.length).toFixed(1);
  const clock = ((performance.now() - begun) / times.length).toFixed(0);
  const both = `${each("script")} ms of the processor for the scripts of both sides, ${each("layout")} for the layout, ${each("all")} in all`;
  console.log(`in ${what}, a key takes ${both}; ${clock} ms went by`);
  if (spent !== undefined) console.log(`in ${what}, the stand-in took ${((standIn.spent - spent) / times.length).toFixed(1)} ms for the answers to a key`);
  return { seen, script: Number(each("script")) };
}

/** Puts a text in as somebody else does, and waits until both sides show it. */
async function fill(page, length, standIn) {
  const text = textOf(length);
  if (standIn === undefined) {
    const session = await page.session("alice");
    for (let at = 0; at < length; at += 2_000) await session.document(FIRST).insert(at, text.slice(at, at + 2_000));
    await session.close();
  } else standIn.fill(text);
  const end = text.replaceAll("\n", "").length;
  while ((await page.browser.run(() => document.querySelector("#bob .ProseMirror").textContent.length)) < end) await pause(500);
}

async function paste(page) {
  await page.goTo("alice");
  const before = await page.browser.processor();
  await page.browser.run((given) => {
    const [own, other] = ["alice", "bob"].map((id) => document.querySelector(`#${id} .ProseMirror`));
    const length = other.textContent.length + given.replaceAll("\n", "").length;
    const begun = performance.now();
    window.times = undefined;
    const look = () => {
      if (other.textContent.length < length) setTimeout(look, 20);
      else requestAnimationFrame(() => (window.times = { own: ownEnd, other: performance.now() - begun }));
    };
    const clipboardData = new DataTransfer();
    clipboardData.setData("text/plain", given);
    own.dispatchEvent(new ClipboardEvent("paste", { clipboardData, bubbles: true, cancelable: true }));
    const ownEnd = performance.now() - begun;
    look();
  }, textOf(Number(PASTED)));
  while (!(await page.browser.run(() => window.times !== undefined))) await pause(100);
  const times = await page.browser.run(() => window.times);
  const after = await page.browser.processor();
  const [script, all] = ["script", "all"].map((part) => (after[part] - before[part]).toFixed(0));
  console.log(`${PASTED} characters pasted: on the other side's screen after ${times.other.toFixed(0)} ms, ${times.own.toFixed(0)} of them for the paste's own scripts`);
  aim(`${PASTED} characters pasted are on the other side's screen`, times.other, AIMS.paste, " ms");
  console.log(`they take ${script} ms of the processor for the scripts of both sides, ${all} in all`);
}

/** Counts what the page's sessions ask from now on. */
function count() {
  window.asked = {};
  window.send ??= WebSocket.prototype.send;
  WebSocket.prototype.send = function (data) {
    const { op } = JSON.parse(String(data));
    if (op !== undefined) window.asked[op] = (window.asked[op] ?? 0) + 1;
    return window.send.call(this, data);
  };
}

async function leave(page, standIn) {
  const session = await page.session("alice");
  const insert = standIn === undefined ? (at, text) => session.document(FIRST).insert(at, text) : (at, text) => standIn.insert(at, text);
  await page.browser.background();
  await pause(1_000);
  await page.browser.run(count);
  let written = 0;
  for (const end = Date.now() + 1_000 * Number(BACKGROUND); Date.now() < end; written += 1) {
    await insert(written, "y");
    await pause(100);
  }
  const { asked, isHidden } = await page.browser.run(() => ({ asked: window.asked, isHidden: document.hidden }));
  await page.browser.run(count);
  const begun = Date.now();
  await page.browser.foreground();
  const shows = (wanted) => [...document.querySelectorAll(".ProseMirror")].every(({ textContent }) => textContent.startsWith(wanted));
  await page.browser.until(shows, "y".repeat(written));
  const after = await page.browser.run(() => window.asked);
  console.log(`${written} keys while the page is ${isHidden ? "hidden" : "not hidden"} for ${BACKGROUND} s: it asks ${JSON.stringify(asked)} meanwhile`);
  console.log(`seen again it asks ${JSON.stringify(after)} until both sides show them, after ${Date.now() - begun} ms`);
  const questions = Object.values(asked).reduce((sum, times) => sum + times, 0) + (after.changes ?? 0) / 2;
  aim(`${BACKGROUND} seconds in the background, what each side asks to catch up`, questions, AIMS.questions, "");
  await session.close();
}

test("latency", async () => {
  const standIn = ONE === undefined ? undefined : new StandIn(FIRST);
  const page = await opened(standIn);
  const empty = await keysIn(page, "nothing", standIn);
  if (Number(characters) > 0) {
    await fill(page, Number(characters), standIn);
    const long = await keysIn(page, `${characters} characters`, standIn);
    aim(`in ${characters} characters, a key's scripts of both sides, by the processor`, long.script, AIMS.script, " ms");
    aim(`in ${characters} characters, a key until it is on the other side's screen, to that in an empty text`, long.seen / empty.seen, AIMS.times, " times");
  }
  if (Number(PASTED) > 0) await paste(page);
  if (Number(BACKGROUND) > 0) await leave(page, standIn);
  for (const words of found) console.log(words);
});
