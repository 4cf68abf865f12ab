// Comments on the page: how they are drawn, and what their chips do.

import assert from "node:assert/strict";

import { withPage } from "./page.mjs";
import { test } from "./timed.mjs";

/** Ids in rising order. The first and the last have one colour. */
const [FIRST, SECOND, THIRD, FOURTH] = ["a", "b", "c", "d"].map((letter) => `${letter}0000000-0000-4000-8000-000000000000`);

/** The texts of an editor's first paragraph, each with the comments around it, the outermost first. */
function drawn(page, name) {
  return page.browser.run((id) => {
    const paragraph = document.querySelector(`#${id} .ProseMirror p`);
    const walker = document.createTreeWalker(paragraph, NodeFilter.SHOW_TEXT);
    const found = [];
    while (walker.nextNode()) {
      const ids = [];
      for (let at = walker.currentNode.parentElement; at !== paragraph; at = at.parentElement) {
        if (at.matches(".comment")) ids.unshift(at.dataset.comment);
      }
      found.push([walker.currentNode.data, ...ids]);
    }
    return found;
  }, name);
}

/** The colours of what a selector finds. */
function colours(page, selector) {
  return page.browser.run((wanted) => {
    const colour = (element) => [getComputedStyle(element).backgroundColor, getComputedStyle(element).borderBottomColor];
    return [...document.querySelectorAll(wanted)].map(colour);
  }, selector);
}

test("comments over each other are drawn alike on both sides, whoever made them first", () =>
  withPage(async (page) => {
    await page.type("alice", "one two three four five");
    await page.agrees();
    await page.browser.click("#link-switch");
    await page.link("parted");
    await page.nextIds(THIRD, FIRST, SECOND);
    await page.comment("alice", "one two three");
    await page.comment("alice", "two three four");
    await page.comment("bob", "three four five");
    await page.select("bob", "two three");
    await page.press("bob", "strong");
    await page.browser.click("#link-switch");
    await page.link("linked");
    await page.agrees();
    const html = await page.html("alice");
    assert.equal(await page.html("bob"), html);
    assert.deepEqual(await drawn(page, "bob"), [
      ["one ", THIRD],
      ["two ", FIRST, THIRD],
      ["three", FIRST, SECOND, THIRD],
      [" four", FIRST, SECOND],
      [" five", SECOND],
    ]);
    for (const place of [".comment", ".chip"]) assert.deepEqual(await colours(page, `#alice ${place}`), await colours(page, `#bob ${place}`));
    await page.browser.reload();
    await page.isRead();
    for (const name of ["alice", "bob"]) assert.equal(await page.html(name), html);
  }));

test("a comment of one's own is in its place before a daemon has it", () =>
  withPage(async (page) => {
    await page.type("alice", "one two");
    await page.savedIs("alice", "saved");
    await page.power("alice");
    await page.daemonIs("alice", "ended");
    await page.nextIds(SECOND, FIRST);
    await page.comment("alice", "one two");
    await page.comment("alice", "two");
    assert.deepEqual(await drawn(page, "alice"), [["one ", SECOND], ["two", FIRST, SECOND]]);
  }));

test("where comments lie over each other all are seen, even in one colour", () =>
  withPage(async (page) => {
    await page.type("alice", "one two three");
    await page.nextIds(FIRST, FOURTH, SECOND);
    await page.comment("alice", "one two three");
    await page.comment("alice", "two three");
    await page.comment("alice", "three");
    const lines = await page.browser.run(() => {
      const line = (comment) => [comment.getClientRects()[0].bottom, parseFloat(getComputedStyle(comment).borderBottomWidth)];
      const comments = [...document.querySelectorAll("#alice .comment")];
      return comments.filter(({ textContent }) => textContent.includes("three")).map(line);
    });
    assert.equal(lines.length, 3);
    const rising = lines.map(([bottom]) => bottom).sort((one, other) => one - other);
    lines.forEach(([, width]) => assert.equal(width, 2));
    for (const index of [1, 2]) assert(rising[index] - rising[index - 1] > 2, `lines that end at ${rising}`);
    for (const [ground] of await colours(page, "#alice .comment")) assert.match(ground, /^rgba\(.*, 0\.\d+\)$/);
  }));

test("a chip shows its comment, in the comment's colour, and leaves it where it is", () =>
  withPage(async (page) => {
    const text = [...Array(60)].map((_, line) => `line ${line} of many`).join("\n");
    await page.paste("alice", text);
    await page.shows("bob", text);
    await page.nextIds(FIRST, SECOND);
    await page.comment("alice", "line 0 of many");
    await page.comment("alice", "of many");
    await page.agrees();
    const [[ground, edge]] = await colours(page, "#alice .comment");
    assert.deepEqual((await colours(page, "#alice .chip"))[0], [ground, edge]);
    await page.browser.click("#alice .chip .show");
    const shown = await page.browser.run(() => {
      const parts = [...document.querySelectorAll(".shown")];
      const isInView = ({ top, bottom }) => top >= 0 && bottom <= innerHeight;
      return {
        text: parts.map(({ textContent }) => textContent).join(""),
        isAtAlice: parts.every((part) => part.closest("#alice") !== null),
        isInView: parts.every((part) => isInView(part.getBoundingClientRect())),
        pressed: [...document.querySelectorAll("#alice .chip .show")].map((button) => button.getAttribute("aria-pressed")),
      };
    });
    assert.deepEqual(shown, { text: "line 0 of many", isAtAlice: true, isInView: true, pressed: ["true", "false"] });
    assert.notDeepEqual((await colours(page, ".shown"))[0][0], ground);
    await page.browser.click("#alice .chip .show");
    assert.equal(await page.browser.run(() => document.querySelectorAll(".shown, .comments [aria-pressed='true']").length), 0);
    await page.agrees();
    assert.equal((await page.spans("bob")).flatMap(({ comments = [] }) => comments).length, 3);
  }));

test("the x of a chip takes its comment away, on both sides, and no other", () =>
  withPage(async (page) => {
    await page.type("alice", "one two");
    await page.nextIds(FIRST, SECOND);
    await page.comment("alice", "one two", "All of it");
    await page.comment("alice", "two");
    await page.browser.until(() => document.querySelector("#bob .comments").textContent === "alice: All of it×alice: Hm.×");
    assert.equal(await page.browser.label("#bob .chip .show"), "Show comment 1 for bob: alice: All of it");
    assert.equal(await page.browser.label("#bob .chip .remove"), "Take away comment 1 for bob: alice: All of it");
    await page.browser.click("#bob .chip .remove");
    await page.browser.until(() => document.querySelectorAll("#alice .chip").length === 1);
    await page.agrees();
    for (const name of ["alice", "bob"]) assert.deepEqual(await drawn(page, name), [["one "], ["two", SECOND]]);
    assert.equal(await page.browser.run(() => document.activeElement === document.querySelector("#bob .ProseMirror")), true);
  }));
