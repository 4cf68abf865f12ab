// The buttons and lines around an editor: what is spoken, what keys do, and that nothing moves.

import assert from "node:assert/strict";

import { FIRST, withPage } from "./page.mjs";
import { test } from "./timed.mjs";

/** What a screen reader says of each button. */
const LABELS = { strong: "Bold", em: "Italic", link: "Link", comment: "Comment", undo: "Undo", redo: "Redo", writers: "Colours of the writers", find: "Find", history: "History" };

const BACKSPACE = "\uE003";
const ENTER = "\uE006";
const ESCAPE = "\uE00C";

/** The window's widths: both editors side by side, and one below the other. */
const WIDTHS = [1100, 600];

test("buttons and editors have names that a screen reader speaks", () =>
  withPage(async (page) => {
    for (const name of ["alice", "bob"]) {
      for (const [what, label] of Object.entries(LABELS)) assert.equal(await page.browser.label(`#${name} [data-do="${what}"]`), `${label} for ${name}`);
      assert.equal(await page.browser.label(`#${name} .ProseMirror`), `What ${name} writes`);
    }
    const pressed = () => page.browser.run(() => [...document.querySelectorAll("#alice [data-do]")].map((button) => button.getAttribute("aria-pressed")));
    await page.type("alice", "word");
    assert.deepEqual(await pressed(), ["false", "false", "false", null, null, null, "false", null, "false"]);
    await page.select("alice", "word");
    await page.press("alice", "em");
    assert.deepEqual(await pressed(), ["false", "true", "false", null, null, null, "false", null, "false"]);
  }));

test("no two buttons or fields have one name", () =>
  withPage(async (page) => {
    await page.type("alice", "word");
    await page.comment("alice", "word");
    await page.browser.until(() => document.querySelectorAll(".chip").length === 2);
    const names = async () => {
      const count = await page.browser.run(() => [...document.querySelectorAll("button, input, .ProseMirror")].map((one, index) => (one.dataset.nth = index)).length);
      return Promise.all([...Array(count).keys()].map((index) => page.browser.label(`[data-nth="${index}"]`)));
    };
    const before = await names();
    assert.equal(new Set(before).size, before.length, String(before));
    for (const name of ["alice", "bob"]) {
      assert(before.includes(`Kill it: the daemon of ${name}`), String(before));
      await page.power(name);
      await page.daemonIs(name, "ended");
    }
    const after = await names();
    assert.equal(new Set(after).size, after.length, String(after));
    for (const name of ["alice", "bob"]) assert(after.includes(`Start it: the daemon of ${name}`), String(after));
  }));

test("a screen reader is told what matters, once, and nothing at each key", () =>
  withPage(async (page) => {
    const live = "output, [aria-live], [role=status], [role=alert], [role=log]";
    await page.browser.run((regions) => {
      window.told = [];
      const tell = (changes) => changes.forEach(({ addedNodes }) => window.told.push(...[...addedNodes].map(({ textContent }) => textContent)));
      for (const region of document.querySelectorAll(regions)) new MutationObserver(tell).observe(region, { childList: true, subtree: true, characterData: true });
    }, live);
    const told = () => page.browser.run(() => window.told.splice(0));
    await page.type("alice", "some words");
    await page.agrees();
    assert.deepEqual(await told(), []);
    await page.press("alice", "comment");
    await page.browser.click("#link-switch");
    await page.link("parted");
    await page.type("bob", "more");
    await page.savedIs("bob", "saved");
    await page.browser.click("#link-switch");
    await page.link("linked");
    await page.agrees();
    assert.deepEqual(await told(), ["alice: Select some text first.", "Both are parted.", "Both are joined."]);
    await page.power("bob");
    await page.daemonIs("bob", "ended");
    await page.type("bob", "and more");
    await page.power("bob");
    await page.link("linked");
    await page.agrees();
    assert.deepEqual(await told(), ["The daemon of bob: killed", "The daemon of bob runs."]);
    const regions = await page.browser.run((selector) => [...document.querySelectorAll(selector)].map(({ id, role }) => [id, role]), live);
    assert.deepEqual(regions, [["news", "status"]]);
  }));

test("what is selected is seen while the address of its link is typed; Enter makes the link", () =>
  withPage(async (page) => {
    const selected = () => page.browser.run(() => [...document.querySelectorAll(".selected")].map((part) => [part.closest(".peer").id, part.textContent]));
    const links = async () => (await page.spans("alice")).filter(({ link }) => link).map(({ text, link }) => [text, link]);
    const isBack = () => page.browser.run(() => document.activeElement.matches("#alice .ProseMirror") && String(getSelection()) === "two");
    const linkAs = async (address) => {
      await page.browser.click("#alice .url");
      await page.browser.keys("a", { control: true });
      await page.browser.keys(address);
    };
    await page.type("alice", "one two three");
    await page.select("alice", "two");
    await linkAs("example.org");
    const session = await page.session("bob");
    await session.document(FIRST).insert(0, "A ");
    await page.shows("alice", "A one two three");
    assert.deepEqual(await selected(), [["alice", "two"]]);
    await page.browser.keys(ESCAPE);
    assert.deepEqual([await selected(), await isBack()], [[], true]);
    await linkAs(`example.org${ENTER}`);
    await page.agrees();
    assert.deepEqual(await links(), [["two", "https://example.org"]]);
    assert.deepEqual([await selected(), await isBack()], [[], true]);
    await linkAs(`someone@example.org${ENTER}`);
    await page.agrees();
    assert.deepEqual(await links(), [["two", "mailto:someone@example.org"]]);
    for (const address of ["javascript:alert(1)", "/somewhere", "nowhere"]) {
      await linkAs(address + ENTER);
      assert.equal(await page.browser.run(() => document.querySelector("#alice .notice").textContent), "Give a whole address, as https://example.org/");
    }
    await page.agrees();
    assert.deepEqual(await links(), [["two", "mailto:someone@example.org"]]);
    await session.close();
  }));

test("Ctrl-K and Cmd-K make a link to the address beside, and take it away", () =>
  withPage(async (page) => {
    const links = async () => (await page.spans("alice")).filter(({ link }) => link).map(({ text, link }) => [text, link]);
    const isAt = (id, text) => page.browser.until((peer, wanted) => (document.querySelector(`#${peer} .ProseMirror a`)?.textContent ?? "") === wanted, id, text);
    await page.type("alice", "one two");
    for (const held of [{ control: true }, { command: true }]) {
      await page.select("alice", "two");
      await page.browser.keys("k", held);
      await isAt("bob", "two");
      await page.agrees();
      assert.deepEqual(await links(), [["two", "https://example.org/"]]);
      await page.browser.keys("k", held);
      await isAt("bob", "");
    }
    await page.goTo("alice");
    await page.browser.keys("k", { control: true });
    assert.equal(await page.browser.run(() => document.querySelector("#alice .notice").textContent), "Select some text first.");
  }));

test("an empty document invites to type, with words that are no part of it", () =>
  withPage(async (page) => {
    const invitations = () => page.browser.run(() => [...document.querySelectorAll(".ProseMirror")].map((editor) => getComputedStyle(editor, "::before").content));
    assert.deepEqual(await invitations(), ['"Write here…"', '"Write here…"']);
    assert.equal(await page.text("alice"), "");
    await page.type("alice", "a");
    await page.shows("bob", "a");
    assert.deepEqual(await invitations(), ["none", "none"]);
    await page.browser.keys(BACKSPACE);
    await page.shows("bob", "");
    assert.deepEqual(await invitations(), ['"Write here…"', '"Write here…"']);
    await page.agrees();
    assert.deepEqual(await page.spans("bob"), []);
  }));

test("a hint or a state that comes or goes moves nothing", () =>
  withPage(async (page) => {
    const places = () =>
      page.browser.run(() => {
        const parts = document.querySelectorAll(".peer, .peer > header, .tools, .editor, .peer footer, .saved, .comments");
        return [document.documentElement.scrollHeight, ...[...parts].map((part) => Object.values(part.getBoundingClientRect().toJSON()))];
      });
    const says = (words) => page.browser.until((wanted) => document.querySelector("#alice .notice").textContent.startsWith(wanted), words);
    const isBelowText = () =>
      page.browser.run(() => {
        const text = document.querySelector("#alice .ProseMirror").lastElementChild;
        return document.querySelector("#alice .notice").getBoundingClientRect().top >= text.getBoundingClientRect().bottom;
      });
    await page.paste("alice", [...Array(20).keys()].join("\n"));
    await page.agrees();
    for (const width of WIDTHS) {
      await page.browser.resize(width, 1400);
      await page.link("linked");
      const before = await places();
      await page.goTo("alice");
      await page.press("alice", "comment");
      await says("Select some text");
      assert.deepEqual(await places(), before, "with a hint");
      // As long as no fault is.
      await page.browser.run(() => (document.querySelector("#alice .notice").textContent = "8 busy, and more words. ".repeat(20)));
      assert.deepEqual(await places(), before, "with a long fault");
      assert.equal(await isBelowText(), true);
      await page.press("alice", "undo");
      await says("");
      await page.press("alice", "redo");
      await page.power("alice");
      await page.daemonIs("alice", "ended");
      await page.type("alice", "s");
      await page.savedIs("alice", "waiting");
      assert.deepEqual(await places(), before, "with a daemon killed");
      await page.power("alice");
      await page.agrees();
      assert.deepEqual(await places(), before, "once it runs again");
    }
  }));
