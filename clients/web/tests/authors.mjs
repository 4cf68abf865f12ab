// Who wrote what, by colour: the stretches themselves, and how they are shown in the page.

import "./page_modules.mjs";
import assert from "node:assert/strict";

import { pause, withPage } from "./page.mjs";
import { test } from "./timed.mjs";

const { StepMap } = await import("prosemirror-transform");
const { after, gapsIn, together } = await import("../page/authors/ranges.js");

const LEFT = "\uE012";

/** A text of letters, each by the writer that it stands for, as stretches. */
function rangesOf(letters) {
  const each = [...letters].map((by, from) => ({ from, to: from + 1, by })).filter(({ by }) => by !== "-");
  return together(each, []);
}

/** The same the other way round. */
function lettersOf(ranges, length) {
  const letters = Array(length).fill("-");
  for (const { from, to, by } of ranges) letters.fill(by, from, to);
  return letters.join("");
}

test("stretches stay with their characters, whatever is put in and taken away", () => {
  for (let times = 0; times < 2_000; times += 1) {
    const letters = [...Array(1 + Math.floor(12 * Math.random()))].map(() => "ab-"[Math.floor(3 * Math.random())]).join("");
    const [from, to] = [0, 0].map(() => Math.floor((letters.length + 1) * Math.random())).sort((one, other) => one - other);
    const count = Math.floor(4 * Math.random());
    const by = [undefined, "a", "c"][Math.floor(3 * Math.random())];
    const wanted = letters.slice(0, from) + (by ?? "-").repeat(count) + letters.slice(to);
    const found = after(rangesOf(letters), new StepMap([from, to - from, count]), by);
    assert.equal(lettersOf(found, wanted.length), wanted, `${letters}: ${count} by ${by} from ${from} to ${to}`);
    assert.deepEqual(found, rangesOf(wanted));
    const gaps = gapsIn(found, 0, wanted.length).map((gap) => ({ ...gap, by: "g" }));
    assert.equal(lettersOf(together(found, gaps), wanted.length), wanted.replaceAll("-", "g"));
  }
});

/** The parts of an editor's first paragraph, each with who wrote it by its colour. */
function written(page, name) {
  return page.browser.run((id) => {
    const parts = [];
    const paragraph = document.querySelector(`#${id} .ProseMirror p`);
    const walker = document.createTreeWalker(paragraph, NodeFilter.SHOW_TEXT);
    while (walker.nextNode()) {
      const by = walker.currentNode.parentElement.closest(".written")?.title ?? "nobody";
      if (parts.at(-1)?.[0] === by) parts.at(-1)[1] += walker.currentNode.data;
      else parts.push([by, walker.currentNode.data]);
    }
    return parts;
  }, name);
}

/** Waits until an editor shows just this. */
async function shows(page, name, ...wanted) {
  for (const end = Date.now() + 20_000; ; await pause(50)) {
    const found = await written(page, name);
    if (JSON.stringify(found) === JSON.stringify(wanted)) return;
    if (Date.now() > end) assert.deepEqual(found, wanted);
  }
}

test("a text is coloured by who wrote it, what is typed here at once, and what others type soon", () =>
  withPage(async (page) => {
    await page.type("alice", "one 🦊 two");
    await page.agrees();
    await page.select("bob", "two");
    await page.browser.keys("TWO");
    await page.agrees();
    await page.browser.run(() => {
      window.asked = 0;
      const send = WebSocket.prototype.send;
      WebSocket.prototype.send = function (data) {
        window.asked += String(data).includes('"anchors"') && JSON.parse(data).at?.length > 1;
        return send.call(this, data);
      };
    });
    await page.press("alice", "writers");
    await shows(page, "alice", ["alice", "one 🦊 "], ["bob", "TWO"]);
    assert.deepEqual(await written(page, "bob"), [["nobody", "one 🦊 TWO"]]);
    const legend = () => page.browser.run(() => [...document.querySelectorAll("#alice .writers li")].map((item) => [item.textContent, item.className]));
    assert.deepEqual(await legend(), [["alice", "writer-0"], ["bob", "writer-1"]]);
    await page.goTo("alice");
    await page.browser.keys(`${LEFT}a`);
    assert.deepEqual(await written(page, "alice"), [["alice", "one 🦊 "], ["bob", "TW"], ["alice", "a"], ["bob", "O"]]);
    await page.agrees();
    const asked = await page.browser.run(() => window.asked);
    assert(asked <= 2, `asked ${asked} times`);
    await page.goTo("bob");
    await page.browser.keys(" bob");
    await shows(page, "alice", ["alice", "one 🦊 "], ["bob", "TW"], ["alice", "a"], ["bob", "O bob"]);
    await page.browser.reload();
    await page.isRead();
    await page.press("bob", "writers");
    await shows(page, "bob", ["alice", "one 🦊 "], ["bob", "TW"], ["alice", "a"], ["bob", "O bob"]);
    await page.press("bob", "writers");
    await shows(page, "bob", ["nobody", "one 🦊 TWaO bob"]);
    assert.deepEqual((await page.spans("alice")).map(({ text }) => text), ["one 🦊 TWaO bob"]);
  }));

test("colours are right for what both wrote while they were parted, and in a long text as it is scrolled", () =>
  withPage(async (page) => {
    const text = [...Array(120)].map((_, line) => `line ${line} of many`).join("\n");
    await page.paste("alice", text);
    await page.shows("bob", text);
    await page.press("bob", "writers");
    await page.browser.until(() => document.querySelectorAll("#bob .written").length > 10);
    await pause(1_500);
    const coloured = await page.browser.run(() => document.querySelectorAll("#bob .written").length);
    assert(coloured < 100, `${coloured} lines, though fewer are on the screen`);
    await page.browser.run(() => document.querySelector("#bob .ProseMirror").lastElementChild.scrollIntoView());
    await page.browser.until(() => document.querySelector("#bob .ProseMirror p:last-child .written") !== null);
    await page.browser.click("#link-switch");
    await page.link("parted");
    await page.browser.run(() => scrollTo(0, 0));
    for (const name of ["alice", "bob"]) {
      await page.browser.run((id) => getSelection().collapse(document.querySelector(`#${id} .ProseMirror p`).firstChild, 0), name);
      await page.browser.run((id) => document.querySelector(`#${id} .ProseMirror`).focus(), name);
      await pause(60);
      await page.browser.keys(name);
    }
    await page.browser.click("#link-switch");
    await page.agrees();
    // Both typed at one place.
    const isFirst = (await page.text("bob")).startsWith("alicebob");
    const wanted = isFirst ? [["alice", "alice"], ["bob", "bob"], ["alice", "line 0 of many"]] : [["bob", "bob"], ["alice", "aliceline 0 of many"]];
    await shows(page, "bob", ...wanted);
  }));
