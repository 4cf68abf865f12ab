// What comments say on the page: their words, answers to them, and that they are resolved.

import assert from "node:assert/strict";

import { pause, withPage } from "./page.mjs";
import { test } from "./timed.mjs";

const [FIRST, SECOND] = ["a", "b"].map((letter) => `${letter}0000000-0000-4000-8000-000000000000`);

/** The document in which comments have their words. */
const REMARKS = 2;

const ENTER = "\uE006";
const ESCAPE = "\uE00C";
const TAB = "\uE004";
const LEFT = "\uE012";

/** The thread that a side shows: its remarks, and its state. */
function thread(page, name) {
  return page.browser.run((id) => {
    const place = document.querySelector(`#${id} .thread`);
    const shown = [...place.querySelectorAll("li, p")].filter((part) => !part.hidden && !place.hidden);
    return shown.map(({ textContent }) => textContent);
  }, name);
}

/** Waits until a side shows just this thread. */
async function tells(page, name, ...wanted) {
  for (const end = Date.now() + 20_000; ; await pause(50)) {
    const found = await thread(page, name);
    if (JSON.stringify(found) === JSON.stringify(wanted)) return;
    if (Date.now() > end) assert.deepEqual(found, wanted);
  }
}

/** Whether a comment's stretch is marked in a text. */
function isMarked(page, name) {
  return page.browser.run((id) => getComputedStyle(document.querySelector(`#${id} .comment`)).borderBottomColor !== "rgba(0, 0, 0, 0)", name);
}

/** What has the focus: a side's text, or what a screen reader says of it. */
function focus(page) {
  return page.browser.run(() => document.activeElement.getAttribute("aria-label"));
}

test("a comment has words, answers and an end, on both sides", () =>
  withPage(async (page) => {
    const does = (name, what) => page.browser.click(`#${name} .thread [data-does="${what}"]`);
    await page.type("alice", "one two three");
    await page.comment("alice", "two", "Why <b>two</b>?");
    await page.agrees();
    assert.deepEqual([await thread(page, "alice"), await focus(page)], [[], "What alice writes"]);
    // On a click in the text, which has the focus then.
    await page.browser.click("#bob .comment");
    await tells(page, "bob", "alice Why <b>two</b>?");
    assert.equal(await focus(page), "What bob writes");
    await page.browser.click("#bob .thread textarea");
    await page.browser.keys(`Because.${ENTER}`);
    await tells(page, "bob", "alice Why <b>two</b>?", "bob Because.");
    await page.browser.click("#alice .chip .show");
    await tells(page, "alice", "alice Why <b>two</b>?", "bob Because.");
    assert.equal(await isMarked(page, "bob"), true);
    await does("alice", "turn");
    await tells(page, "bob", "alice Why <b>two</b>?", "bob Because.", "Resolved by alice.");
    for (const name of ["alice", "bob"]) assert.equal(await isMarked(page, name), false);
    assert.equal(await page.browser.run(() => document.querySelector("#bob .chip").textContent), "✓ alice: Why <b>two</b>?×");
    await does("bob", "turn");
    await tells(page, "alice", "alice Why <b>two</b>?", "bob Because.");
    for (const name of ["alice", "bob"]) assert.equal(await isMarked(page, name), true);
    await does("bob", "close");
    await tells(page, "bob");
    await page.agrees();
    const told = await page.browser.run(() => [...document.querySelectorAll("#news p")].map(({ textContent }) => textContent));
    assert.deepEqual(told, ["alice: The comment is there.", "alice: The comment is resolved.", "bob: The comment is open again."]);
  }));

test("a comment is made, shown, answered and left by keys alone; without words none is made", () =>
  withPage(async (page) => {
    const comment = () => page.browser.keys("m", { control: true, alt: true });
    await page.type("alice", "one two");
    await comment();
    assert.equal(await page.browser.run(() => document.querySelector("#alice .notice").textContent), "Select some text first.");
    await page.select("alice", "two");
    await comment();
    assert.equal(await focus(page), "Words of the new comment of alice");
    assert.equal(await page.browser.run(() => document.querySelector("#alice .selected").textContent), "two");
    await page.browser.keys(`  ${ENTER}`);
    assert.equal(await focus(page), "Words of the new comment of alice");
    await page.browser.keys(`never said${ESCAPE}`);
    assert.equal(await focus(page), "What alice writes");
    assert.equal(await page.browser.run(() => document.querySelectorAll(".comment, .chip").length), 0);
    await comment();
    // What was written is still there.
    await page.browser.keys("a", { control: true });
    await page.browser.keys(`Two?${ENTER}`);
    assert.equal(await focus(page), "What alice writes");
    await page.agrees();
    assert.deepEqual((await page.spans("bob")).map(({ text, comments = [] }) => [text, comments.length]), [["one ", 0], ["two", 1]]);
    // At the caret, without a selection.
    await page.goTo("alice");
    await page.browser.keys(LEFT);
    await pause(60);
    await comment();
    await tells(page, "alice", "alice Two?");
    assert.equal(await focus(page), "A comment, as alice has it");
    await page.browser.keys(`${TAB}Yes.${ENTER}`);
    await tells(page, "alice", "alice Two?", "alice Yes.");
    await page.browser.keys(ESCAPE);
    await tells(page, "alice");
    assert.equal(await focus(page), "Show comment 1 for alice: alice: Two?");
    await page.browser.keys(ENTER);
    await tells(page, "alice", "alice Two?", "alice Yes.");
    const names = await page.browser.run(() => {
      const controls = [...document.querySelectorAll("button, input, textarea, .ProseMirror")];
      return controls.map((one) => one.getAttribute("aria-label") ?? one.textContent);
    });
    assert.equal(new Set(names).size, names.length, String(names));
  }));

test("what both sides say while they are parted is in one thread once they are joined", () =>
  withPage(async (page) => {
    await page.type("alice", "one two");
    await page.comment("alice", "two", "So?");
    await page.agrees();
    for (const name of ["alice", "bob"]) await page.browser.click(`#${name} .chip .show`);
    await page.browser.click("#link-switch");
    await page.link("parted");
    for (const name of ["alice", "bob"]) {
      await page.browser.click(`#${name} .thread textarea`);
      await page.browser.keys(`I am ${name}${ENTER}`);
    }
    await page.browser.click('#bob [data-does="turn"]');
    await tells(page, "alice", "alice So?", "alice I am alice");
    await tells(page, "bob", "alice So?", "bob I am bob", "Resolved by bob.");
    await page.browser.click("#link-switch");
    await page.browser.until(() => document.querySelectorAll(".thread li, .thread p:not([hidden])").length === 8);
    const [mine, theirs] = [await thread(page, "alice"), await thread(page, "bob")];
    assert.deepEqual(mine, theirs);
    assert.deepEqual(mine.toSorted(), ["Resolved by bob.", "alice I am alice", "alice So?", "bob I am bob"].toSorted());
  }));

test("words wait while the daemon is killed, and what others broke is left out", () =>
  withPage(async (page) => {
    const session = await page.session("bob");
    const remarks = session.document(REMARKS);
    await remarks.insert(0, "no remark");
    await page.type("alice", "one two");
    await page.agrees();
    await page.nextIds(FIRST);
    await page.power("alice");
    await page.daemonIs("alice", "ended");
    await page.comment("alice", "two", "While it is killed");
    await page.savedIs("alice", "waiting");
    await page.browser.click("#alice .comment");
    await tells(page, "alice", "alice While it is killed");
    await page.power("alice");
    await page.agrees();
    await page.browser.click("#bob .comment");
    await tells(page, "bob", "alice While it is killed");
    const text = await remarks.text();
    assert.deepEqual(text.split("\n").filter((line) => line !== ""), ["no remark", `${FIRST}\tsays\talice\tWhile it is killed`]);
    await remarks.insert(text.indexOf(FIRST), "-");
    await tells(page, "bob", "Nobody told what this comment says.");
    assert.equal(await page.browser.run(() => document.querySelector("#bob .chip .show").textContent), "a0000000");
    await remarks.insert(0, `${FIRST}\tsays\tcarol\\\tone\\ntwo \\\\n\n${SECOND}\tsays\tcarol\tof nothing here\n`);
    await tells(page, "bob", "carol\\ one\ntwo \\n");
    await session.close();
  }));
