// The list of texts on the page: new ones, other names, and what becomes of a text while another one is open.

import assert from "node:assert/strict";

import { FIRST, pause, withPage } from "./page.mjs";
import { test } from "./timed.mjs";

const ESCAPE = "\uE00C";
const ENTER = "\uE006";
const TAB = "\uE004";

/** What has the focus, by the name that a screen reader speaks. */
async function focused(page) {
  await page.browser.run(() => {
    document.querySelector("[data-focused]")?.removeAttribute("data-focused");
    document.activeElement.dataset.focused = "";
  });
  return page.browser.label("[data-focused]");
}

test("a new text is in both lists, and each side opens it by itself", () =>
  withPage(async (page) => {
    await page.type("alice", "first");
    await page.hasTexts("bob", "First text*");
    await page.nameText("alice", "make", "Shopping");
    await page.hasTexts("alice", "First text", "Shopping*");
    await page.hasTexts("bob", "First text*", "Shopping");
    assert.equal(await focused(page), "What alice writes");
    await page.browser.keys("milk");
    await page.shows("alice", "milk");
    await page.shows("bob", "first");
    assert.equal(await page.browser.run(() => document.querySelector("#same").textContent), "each shows another text");
    // A caret in another text isn't in this one, not even at its start.
    await page.goTo("bob");
    await page.browser.keys("!");
    await pause(1_500);
    assert.equal(await page.browser.run(() => document.querySelectorAll(".caret").length), 0);
    const number = await page.openText("bob", "Shopping");
    await page.shows("bob", "milk");
    await page.agrees();
    await page.browser.keys("bread, ");
    await page.shows("alice", "bread, milk");
    await page.browser.until(() => document.querySelector("#alice .caret")?.dataset.name === "bob");
    const session = await page.session("alice");
    assert.equal(await session.document(number).text(), "bread, milk");
    assert.equal(await session.document(FIRST).text(), "first!");
    await session.close();
  }));

test("texts that both sides make and name while they are parted are in one list once they are joined", () =>
  withPage(async (page) => {
    await page.nameText("alice", "make", "Plans");
    await page.hasTexts("bob", "First text*", "Plans");
    await page.openText("bob", "Plans");
    await page.browser.click("#link-switch");
    await page.link("parted");
    await page.nameText("alice", "rename", "Plans of alice");
    await page.nameText("bob", "rename", "Plans of bob");
    await page.nameText("alice", "make", "Letters");
    await page.nameText("bob", "make", "Letters");
    await page.type("alice", "Dear bob");
    await page.type("bob", "Dear alice");
    await page.hasTexts("alice", "First text", "Plans of alice", "Letters*");
    await page.hasTexts("bob", "First text", "Plans of bob", "Letters*");
    await page.browser.click("#link-switch");
    await page.link("linked");
    await page.browser.until(() => document.querySelectorAll("#alice .texts li").length === 4 && document.querySelectorAll("#bob .texts li").length === 4);
    const names = (await page.texts("alice")).map((name) => name.replace("*", ""));
    assert.deepEqual((await page.texts("bob")).map((name) => name.replace("*", "")), names);
    assert(["Plans of alice", "Plans of bob"].includes(names[1]), String(names));
    assert.deepEqual(names.slice(2), ["Letters", "Letters (2)"]);
    // Neither one's text is in the other's.
    await page.openText("alice", "Letters");
    await page.openText("bob", "Letters");
    await page.agrees();
    const texts = [await page.text("alice")];
    await page.openText("alice", "Letters (2)");
    texts.push(await page.text("alice"));
    assert.deepEqual(texts.toSorted(), ["Dear alice", "Dear bob"]);
  }));

test("what waits in a text is sent while another one is open, and can be undone once it is open again", () =>
  withPage(async (page) => {
    await page.type("alice", "kept");
    await page.nameText("alice", "make", "Other");
    await page.savedIs("alice", "saved");
    await page.openText("alice", "First text");
    await page.power("alice");
    await page.daemonIs("alice", "ended");
    await pause(600);
    await page.type("alice", ", and more");
    await page.savedIs("alice", "waiting");
    await page.openText("alice", "Other");
    await page.nameText("alice", "rename", "Another");
    await page.type("alice", "waits, too");
    await page.hasTexts("alice", "First text", "Another*");
    await page.savedIs("alice", "waiting");
    await page.power("alice");
    await page.daemonIs("alice", "running");
    await page.savedIs("alice", "saved");
    await page.shows("bob", "kept, and more");
    await page.hasTexts("bob", "First text*", "Another");
    await page.openText("alice", "First text");
    await page.agrees();
    await page.press("alice", "undo");
    await page.shows("bob", "kept");
    await page.browser.reload();
    await page.isRead();
    await page.openText("alice", "Another");
    await page.browser.reload();
    await page.isRead();
    await page.hasTexts("alice", "First text", "Another*");
    await page.shows("alice", "waits, too");
  }));

test("texts are made, named and opened by keys alone; what has no name isn't made", () =>
  withPage(async (page) => {
    const notice = () => page.browser.run(() => document.querySelector("#alice .notice").textContent);
    await page.browser.run(() => document.querySelector("#alice .power").focus());
    await page.browser.keys(TAB);
    assert.equal(await focused(page), "Open First text for alice");
    await page.browser.keys(TAB + ENTER);
    assert.equal(await focused(page), "Name of the new text for alice");
    await page.browser.keys(`  ${ENTER}`);
    assert.equal(await notice(), "Give it a name.");
    await page.browser.keys(`First text${ENTER}`);
    assert.equal(await notice(), "Another text has this name.");
    await page.browser.keys(ESCAPE);
    assert.equal(await focused(page), "Open First text for alice");
    await page.browser.keys(`${TAB}${ENTER}A <b>name</b>${ENTER}`);
    await page.browser.until(() => document.activeElement.matches("#alice .ProseMirror"));
    await page.browser.keys("one");
    await page.shows("alice", "one");
    await page.hasTexts("bob", "First text*", "A <b>name</b>");
    await page.browser.run(() => document.querySelector("#alice [aria-current]").focus());
    await page.browser.keys(`${TAB}${TAB}${ENTER}`);
    assert.equal(await focused(page), "New name of A <b>name</b> for alice");
    await page.browser.keys(`Names${ENTER}`);
    assert.equal(await focused(page), "Open Names for alice");
    await page.hasTexts("bob", "First text*", "Names");
    const told = await page.browser.run(() => [...document.querySelectorAll("#news p")].map(({ textContent }) => textContent));
    assert.deepEqual(told, ["alice: Give it a name.", "alice: Another text has this name.", "alice: A <b>name</b> is open."]);
  }));

test("lines in the list of names that are none aren't shown, and stay", () =>
  withPage(async (page) => {
    const session = await page.session("bob");
    const names = session.document(1);
    await names.insert(0, "no name\n2 comments\n77 Seventy-seven\n1e9 x");
    await page.hasTexts("alice", "First text*", "Seventy-seven");
    await page.openText("alice", "Seventy-seven");
    await page.nameText("alice", "rename", "77");
    await page.nameText("alice", "make", "More");
    await page.hasTexts("bob", "First text*", "77", "More");
    const lines = (await names.text()).split("\n").filter((line) => line !== "");
    assert.deepEqual(lines.map((line) => line.replace(/^\d+ More/, "N More")), ["no name", "2 comments", "77 77", "1e9 x", "N More"]);
    await session.close();
  }));
