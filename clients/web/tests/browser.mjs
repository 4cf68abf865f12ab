// The page in a real browser: what two people do there.

import assert from "node:assert/strict";

import { FIRST, pause, withPage } from "./page.mjs";
import { test } from "./timed.mjs";

/** What the page complained of, beside daemons that weren't there. */
async function complaints(page) {
  return (await page.browser.complaints()).filter((message) => !message.includes("WebSocket connection to"));
}

/** What somebody pastes of another page. */
const PASTED =
  "<h1>big</h1><p><img src=x onerror=alert(1)><a href='javascript:alert(2)'>no</a> <b>bold</b></p>" +
  "<table><tr><td>cell</td></tr></table>";

const ENTER = "\uE006";
const BACKSPACE = "\uE003";
const LEFT = "\uE012";
const HOME = "\uE011";
const END = "\uE010";
const TAB = "\uE004";

/** The size of the window in the pictures. */
const PICTURE = [1280, 940];

/** Two comments, whose colours differ. */
const IDS = ["9f0c0f1b-63a4-4c1e-9d57-2f0b8a6e41c3", "52e6b438-7d15-4b0a-8c2e-90d1f34a7be6"];

test("two who type apart come to show the same, with its marks", () =>
  withPage(async (page) => {
    await page.browser.resize(...PICTURE);
    await page.nameText("alice", "rename", "Fox and dog");
    await page.nameText("alice", "make", "Shopping");
    await page.openText("alice", "Fox and dog");
    await page.type("alice", `The quick fox${ENTER}jumps over the dog`);
    await page.agrees();
    await page.hasTexts("bob", "Fox and dog*", "Shopping");
    await page.nextIds(...IDS);
    await page.link("linked");
    await page.browser.click("#link-switch");
    await page.link("parted");
    await page.select("alice", "quick fox");
    await page.press("alice", "strong");
    await page.type("alice", ", once more");
    await page.comment("alice", "over the dog", "Which dog is it?");
    await page.select("bob", "fox");
    await page.browser.keys(`${LEFT}brown `);
    await page.select("bob", "fox");
    await page.press("bob", "link");
    await page.comment("bob", "jumps over", "How high?");
    await page.select("bob", "dog");
    await page.browser.keys("lazy dog");
    await page.select("bob", "lazy");
    await page.browser.keys("i", { control: true });
    await page.savedIs("alice", "saved");
    await page.savedIs("bob", "saved");
    assert.equal(await page.text("alice"), "The quick fox\njumps over the dog, once more");
    assert.equal(await page.text("bob"), "The quick brown fox\njumps over the lazy dog");
    assert.equal(await page.browser.run(() => document.querySelector("#same").dataset.same), "false");
    await page.picture("demo-parted");
    await page.browser.click("#link-switch");
    await page.agrees();
    await page.link("linked");
    await page.browser.click("#bob .chip:nth-child(2) .show");
    await page.browser.keys(`${TAB}The neighbours' one.${ENTER}`);
    await page.browser.until(() => document.querySelectorAll("#bob .thread li").length === 2);
    await page.press("alice", "writers");
    await page.browser.until(() => document.querySelectorAll("#alice .writers li").length === 2);
    await page.agrees();
    await page.picture("demo");
    await page.press("alice", "writers");
    const spans = await page.spans("alice");
    assert.deepEqual(await page.spans("bob"), spans);
    assert.equal(spans.map(({ text }) => text).join(""), await page.text("alice"));
    assert.equal(await page.text("bob"), await page.text("alice"));
    assert.deepEqual(spans.filter(({ strong }) => strong).map(({ text }) => text), ["quick brown ", "fox"]);
    assert.deepEqual(spans.filter(({ link }) => link).map(({ text, link, strong }) => [text, link, strong]), [["fox", "https://example.org/", true]]);
    assert.deepEqual(spans.filter(({ em }) => em).map(({ text }) => text), ["lazy"]);
    const commented = IDS.map((id) => spans.filter(({ comments }) => comments?.includes(id)).map(({ text }) => text).join(""));
    assert.deepEqual(commented, ["over the lazy dog", "jumps over"]);
    for (const name of ["alice", "bob"]) assert.match(await page.html(name), /<strong>quick brown <\/strong>/);
    assert.deepEqual(await complaints(page), []);
  }));

test("what is typed while a daemon is killed is there once it runs again", () =>
  withPage(async (page) => {
    await page.type("alice", "before ");
    await page.savedIs("alice", "saved");
    const session = await page.session("alice");
    const lines = [...Array(100)].map(() => session.document(FIRST + 1).insert(0, "x"));
    const all = Promise.allSettled(lines);
    await Promise.race(lines);
    const typing = page.browser.keys("while it is killed, ");
    await pause(100);
    page.demo.daemon("alice").kill();
    await typing;
    await page.daemonIs("alice", "ended");
    const answered = (await all).filter(({ status }) => status === "fulfilled").length;
    assert(answered > 0);
    await page.browser.keys("and afterwards");
    await page.browser.put(" 🦊");
    await page.savedIs("alice", "waiting");
    await page.power("alice");
    await page.daemonIs("alice", "running");
    await page.agrees();
    await page.shows("bob", await page.text("alice"));
    for (const name of ["alice", "bob"]) assert.equal(await page.text(name), "before while it is killed, and afterwards 🦊");
    const again = await page.session("alice");
    const { length } = await again.document(FIRST + 1).text();
    assert(length >= answered && length <= 100, `${answered} were answered, ${length} are there`);
    await again.close();
    assert.deepEqual(await complaints(page), []);
  }));

test("each of two daemons may be killed, whoever began the link", () =>
  withPage(async (page) => {
    for (const name of ["bob", "alice"]) {
      await page.power(name);
      await page.daemonIs(name, "ended");
      await page.link("joining");
      await page.type("alice", "a");
      await page.type("bob", "b");
      await page.power(name);
      await page.link("linked");
      await page.agrees();
    }
    assert.equal([...(await page.text("alice"))].sort().join(""), "aabb");
  }));

test("a page that is loaded again while parted shows what its daemons have", () =>
  withPage(async (page) => {
    await page.browser.click("#link-switch");
    await page.link("parted");
    await page.type("alice", "one");
    await page.type("bob", "other");
    await page.savedIs("alice", "saved");
    await page.savedIs("bob", "saved");
    await page.browser.reload();
    await page.isRead();
    assert.deepEqual([await page.text("alice"), await page.text("bob")], ["one", "other"]);
    await page.link("parted");
    await page.browser.click("#link-switch");
    await page.agrees();
    assert.equal((await page.text("alice")).length, 8);
  }));

test("emoji, a long paste and joined paragraphs are the same on both sides", () =>
  withPage(async (page) => {
    await page.goTo("alice");
    await page.browser.put("👩‍👩‍👧 é 🇪🇺");
    await page.browser.keys(ENTER);
    const long = `${"words that go on 😀 ".repeat(40)}end`;
    await page.paste("alice", `${long}\nsecond\nthird`);
    const wanted = `👩‍👩‍👧 é 🇪🇺\n${long}\nsecond\nthird`;
    await page.shows("alice", wanted);
    await page.agrees();
    assert.equal(await page.text("bob"), wanted);
    await page.browser.run(() => getSelection().collapse(document.querySelectorAll("#alice .ProseMirror p")[2].firstChild, 0));
    await pause(60);
    await page.browser.keys(BACKSPACE);
    await page.shows("bob", wanted.replace("end\nsecond", "endsecond"));
    await page.browser.keys("a", { control: true });
    await page.browser.keys(BACKSPACE);
    await page.shows("bob", "");
    assert.deepEqual(await complaints(page), []);
  }));

test("a word that is composed is whole, whatever the other writes meanwhile", () =>
  withPage(async (page) => {
    await page.type("alice", "start ");
    await page.shows("bob", "start ");
    await page.goTo("alice");
    await page.browser.compose("か");
    const session = await page.session("bob");
    await session.document(FIRST).insert(0, "other ");
    await pause(400);
    await page.browser.compose("かん");
    await page.browser.put("漢");
    await page.shows("bob", "other start 漢");
    await page.agrees();
    await session.close();
  }));

test("what is typed within a link or a comment has its marks", () =>
  withPage(async (page) => {
    await page.type("alice", "one two");
    await page.select("alice", "two");
    await page.press("alice", "link");
    await page.comment("alice", "two");
    await page.shows("bob", "one two");
    await page.agrees();
    await page.goTo("bob");
    await page.browser.keys(`${LEFT}X`);
    await page.shows("alice", "one twXo");
    await page.goTo("bob");
    await page.browser.keys(" Y");
    await page.shows("alice", "one twXo Y");
    await page.agrees();
    const marked = (await page.spans("alice")).map(({ text, link, comments = [] }) => [text, link, comments.length]);
    assert.deepEqual(marked, [["one ", undefined, 0], ["twXo", "https://example.org/", 1], [" Y", undefined, 0]]);
  }));

test("undo takes back what one did oneself, and nothing of the other", () =>
  withPage(async (page) => {
    await page.goTo("alice");
    await page.browser.put("one");
    await pause(600);
    await page.browser.put(" two");
    await page.shows("bob", "one two");
    await page.goTo("bob");
    // Letters of its own: which of two equal ones came, no text tells.
    await page.browser.put("!FÜNF");
    await page.shows("alice", "one two!FÜNF");
    await page.press("alice", "undo");
    await page.shows("bob", "one!FÜNF");
    await page.press("alice", "undo");
    await page.shows("bob", "!FÜNF");
    await page.press("alice", "redo");
    await page.press("alice", "redo");
    await page.shows("bob", "one two!FÜNF");
    await page.goTo("bob");
    await page.browser.keys("z", { control: true });
    await page.shows("alice", "one two");
  }));

test("an undo takes back what was typed side by side, and not what was typed elsewhere right before", () =>
  withPage(async (page) => {
    await page.type("alice", "middle");
    await pause(600);
    await page.browser.keys(`ab${HOME}cd${END}!`);
    await page.shows("alice", "cdmiddleab!");
    for (const text of ["cdmiddleab", "middleab", "middle", ""]) {
      await page.press("alice", "undo");
      await page.shows("bob", text);
    }
    await page.press("alice", "redo");
    await page.press("alice", "redo");
    await page.shows("bob", "middleab");
  }));

test("a button that has nothing to do says what is missing", () =>
  withPage(async (page) => {
    const notice = () => page.browser.run(() => document.querySelector("#alice .notice").textContent);
    await page.type("alice", "abc");
    await page.press("alice", "comment");
    await pause(500);
    assert.equal(await notice(), "Select some text first.");
    await page.browser.run(() => (document.querySelector("#alice .url").value = "nowhere"));
    await page.select("alice", "b");
    await page.press("alice", "link");
    assert.equal(await notice(), "Give a whole address, as https://example.org/");
    await page.press("alice", "comment");
    assert.equal(await notice(), "");
  }));

test("a page may be opened while a daemon is killed, and shows its document once it runs", () =>
  withPage(async (page) => {
    await page.type("alice", "kept");
    await page.savedIs("alice", "saved");
    await page.power("alice");
    await page.daemonIs("alice", "ended");
    await page.browser.reload();
    await page.browser.until(() => document.querySelectorAll(".ProseMirror").length === 1);
    await page.power("alice");
    await page.isRead();
    await page.agrees();
    assert.equal(await page.text("bob"), "kept");
  }));

test("links that could run a script, and marks from elsewhere, aren't taken", () =>
  withPage(async (page) => {
    const session = await page.session("alice");
    await session.document(FIRST).insert(0, "click me");
    await session.document(FIRST).mark(0, 5, { kind: "link", url: "javascript:alert(1)" });
    await page.shows("bob", "click me");
    await page.browser.until(() => document.querySelector("#bob .ProseMirror a")?.getAttribute("href") === "about:blank");
    await page.goTo("bob");
    await page.paste("bob", PASTED, "text/html");
    await page.agrees();
    assert.match(await page.text("alice"), /no bold/);
    const spans = await page.spans("bob");
    assert.deepEqual(spans.filter(({ strong }) => strong).map(({ text }) => text), ["bold"]);
    assert.deepEqual(spans.filter(({ link }) => link).map(({ text }) => text), ["click"]);
    await session.close();
    // An image's script is tried while the paste is read, and the page's policy blocks it.
    for (const complaint of await complaints(page)) assert.match(complaint, /Content Security Policy.*has been blocked/);
  }));
