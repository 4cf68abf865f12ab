// The search in a text: by keys and by buttons, while others write, and in another text.

import assert from "node:assert/strict";

import { finds, refusesToFind } from "./find_stand_in.mjs";
import { FIRST, pause, withPage } from "./page.mjs";
import { test } from "./timed.mjs";

const ENTER = "\uE006";
const ESCAPE = "\uE00C";
const BACKSPACE = "\uE003";

/** Runs a test over a page that finds. */
function withSearch(work) {
  return withPage(async (page) => {
    await finds(page);
    await work(page);
  });
}

/** Opens the search of a side by keys, and types what is looked for there. */
async function seek(page, name, words) {
  await page.browser.run((id) => document.querySelector(`#${id} .ProseMirror`).focus(), name);
  await page.browser.keys("f", { control: true });
  await page.browser.until((id) => document.activeElement.matches(`#${id} .sought`), name);
  await page.browser.keys(words);
}

/** Waits until a side counts so. */
function counts(page, name, words) {
  return page.browser.until((id, wanted) => document.querySelector(`#${id} .count`)?.textContent === wanted, name, words);
}

/** What is drawn as found, the current one with a star; each with what stands before it in its paragraph. */
function drawn(page, name) {
  return page.browser.run((id) => {
    const all = [...document.querySelectorAll(`#${id} .ProseMirror p`)].map((paragraph) => {
      const walker = document.createTreeWalker(paragraph, NodeFilter.SHOW_TEXT);
      let line = "";
      while (walker.nextNode()) {
        const { parentElement, data } = walker.currentNode;
        const found = parentElement.closest(".found");
        line += found === null ? data : found.matches(".current") ? `{${data}}` : `[${data}]`;
      }
      // A mark parts it.
      return line.replaceAll("}{", "").replaceAll("][", "");
    });
    return all.join("\n");
  }, name);
}

async function shows(page, name, wanted) {
  for (const end = Date.now() + 20_000; ; await pause(50)) {
    const found = await drawn(page, name);
    if (found === wanted) return;
    if (Date.now() > end) assert.equal(found, wanted);
  }
}

test("a text is found by keys, forwards, backwards and round, and Escape goes to the place", () =>
  withSearch(async (page) => {
    await page.type("alice", `fox box fox${ENTER}Fox 🦊 fox`);
    await page.agrees();
    await seek(page, "alice", "fox");
    // From the caret on, and round.
    await counts(page, "alice", "1 of 3");
    await shows(page, "alice", "{fox} box [fox]\nFox 🦊 [fox]");
    await page.browser.keys(ENTER);
    await counts(page, "alice", "2 of 3");
    await page.browser.keys(ENTER);
    await counts(page, "alice", "3 of 3");
    await shows(page, "alice", "[fox] box [fox]\nFox 🦊 {fox}");
    await page.browser.keys(ENTER);
    await counts(page, "alice", "1 of 3");
    await page.browser.keys(ENTER, { shift: true });
    await counts(page, "alice", "3 of 3");
    await page.browser.keys(ESCAPE);
    await page.browser.until(() => document.activeElement.matches("#alice .ProseMirror"));
    assert.equal(await page.browser.run(() => document.querySelector("#alice .search").hidden), true);
    assert.equal(await drawn(page, "alice"), "fox box fox\nFox 🦊 fox");
    await page.browser.keys("dog");
    await page.shows("bob", "fox box fox\nFox 🦊 dog");
    await page.agrees();
  }));

test("buttons do the same; what is selected is looked for, and what stands nowhere is said to", () =>
  withSearch(async (page) => {
    await page.type("alice", "one two one two");
    await page.agrees();
    await page.select("alice", "two");
    await page.press("alice", "find");
    await page.browser.until(() => document.querySelector("#alice .sought").value === "two");
    await counts(page, "alice", "1 of 2");
    await shows(page, "alice", "one {two} one [two]");
    for (const [what, words] of [["next", "2 of 2"], ["next", "1 of 2"], ["previous", "2 of 2"]]) {
      await page.browser.click(`#alice [data-find="${what}"]`);
      await counts(page, "alice", words);
    }
    const told = () => page.browser.run(() => document.querySelector("#news").lastElementChild?.textContent);
    assert.equal(await told(), "alice: 2 of 2");
    await page.browser.click("#alice .sought");
    await page.browser.keys("three");
    await counts(page, "alice", "none found");
    assert.equal(await told(), "alice: none found");
    assert.equal(await drawn(page, "alice"), "one two one two");
    await page.browser.keys("a", { control: true });
    await page.browser.keys(BACKSPACE);
    await counts(page, "alice", "");
    await page.browser.click('#alice [data-find="close"]');
    await page.browser.until(() => document.activeElement.matches("#alice .ProseMirror"));
  }));

test("what was found moves with its text, and what others write is found; marks and comments don't matter", () =>
  withSearch(async (page) => {
    await page.type("alice", "red fox, red 🦊");
    await page.agrees();
    await page.select("alice", "ed f");
    await page.press("alice", "strong");
    await seek(page, "alice", "red ");
    // From the start of what was selected on.
    await counts(page, "alice", "2 of 2");
    await page.browser.keys(ENTER);
    await counts(page, "alice", "1 of 2");
    const before = await drawn(page, "alice");
    assert.equal(before, "{red }fox, [red ]🦊");
    const session = await page.session("bob");
    await session.document(FIRST).insert(0, "A red one, a ");
    await page.browser.until(() => /of 3$/.test(document.querySelector("#alice .count").textContent));
    await shows(page, "alice", `A [red ]one, a ${before}`);
    // Nothing is left of one, and another one isn't what is looked for any more.
    await session.document(FIRST).delete(2, 4);
    await page.browser.until(() => /of 2$/.test(document.querySelector("#alice .count").textContent));
    await shows(page, "alice", `A one, a ${before}`);
    await session.close();
    await page.agrees();
  }));

test("it goes on in another text, and once a killed daemon runs again", () =>
  withSearch(async (page) => {
    await page.type("alice", "fox");
    await page.nameText("alice", "make", "Other");
    await page.browser.keys("no ox, fox fox");
    await page.savedIs("alice", "saved");
    await seek(page, "alice", "fox");
    await counts(page, "alice", "1 of 2");
    await page.openText("alice", "First text");
    await counts(page, "alice", "1 of 1");
    await shows(page, "alice", "{fox}");
    await page.power("alice");
    await page.daemonIs("alice", "ended");
    await page.type("alice", " fox");
    await page.savedIs("alice", "waiting");
    await page.power("alice");
    await page.savedIs("alice", "saved");
    await counts(page, "alice", "1 of 2");
    await shows(page, "alice", "{fox} [fox]");
  }));

test("more than one answer tells are counted, and those nearby are drawn", () =>
  withSearch(async (page) => {
    await page.paste("alice", `${"aaaaaaaaaa ".repeat(130)}`);
    await page.agrees();
    await seek(page, "alice", "a");
    await counts(page, "alice", "1 of 1300");
    assert.equal(await page.browser.run(() => document.querySelectorAll("#alice .found").length > 0), true);
    await page.browser.keys(ENTER, { shift: true });
    await counts(page, "alice", "1300 of 1300");
  }));

test("an earlier daemon, which doesn't find, is named", () =>
  withPage(async (page) => {
    await refusesToFind(page);
    await page.type("alice", "fox");
    await page.agrees();
    await seek(page, "alice", "fox");
    await page.browser.until(() => document.querySelector("#alice .notice").textContent.includes("an older program knows no `find`"));
    await page.browser.keys(ESCAPE);
    await page.type("alice", "!");
    await page.shows("bob", "fox!");
  }));
