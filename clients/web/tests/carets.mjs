// Others' carets on the page: where they are drawn, and that they stay with their text.

import assert from "node:assert/strict";

import { FIRST, pause, withPage } from "./page.mjs";
import { test } from "./timed.mjs";
import { Browser } from "./webdriver.mjs";

const ENTER = "\uE006";
const LEFT = "\uE012";
const RIGHT = "\uE014";
const BACKSPACE = "\uE003";

/** The carets in an editor: whose each is, the text before it in its paragraph, and all that is selected. */
function carets(page, name) {
  return page.browser.run((id) => {
    const before = (caret) => {
      const range = document.createRange();
      range.setStart(caret.closest("p"), 0);
      range.setEndBefore(caret);
      return range.toString();
    };
    const selected = [...document.querySelectorAll(`#${id} .theirs`)].map(({ textContent }) => textContent).join("|");
    return [...document.querySelectorAll(`#${id} .caret`)].map((caret) => [caret.dataset.name, before(caret), selected]);
  }, name);
}

/** Waits until an editor shows just these carets. */
async function shows(page, name, ...wanted) {
  const end = Date.now() + 20_000;
  for (;;) {
    const found = await carets(page, name);
    if (JSON.stringify(found) === JSON.stringify(wanted)) return;
    if (Date.now() > end) assert.deepEqual(found, wanted);
    await pause(30);
  }
}

/** Has the page note all that is between a paragraph's start and the caret in it, in each frame in which it is another one. */
function watchCaret(page, name) {
  return page.browser.run((id) => {
    window.seen = [];
    const look = () => {
      const caret = document.querySelector(`#${id} .caret`);
      const range = document.createRange();
      if (caret !== null) {
        range.selectNodeContents(caret.closest("p"));
        range.setStartAfter(caret);
      }
      const after = caret === null ? "none" : range.toString();
      if (window.seen.at(-1) !== after) window.seen.push(after);
      requestAnimationFrame(look);
    };
    look();
  }, name);
}

test("each side shows where the other's caret is, with the name and what is selected", () =>
  withPage(async (page) => {
    await page.type("alice", `one two three${ENTER}four`);
    await shows(page, "bob", ["alice", "four", ""]);
    await shows(page, "alice");
    await page.select("bob", "two");
    await shows(page, "alice", ["bob", "one two", "two"]);
    await page.select("bob", "four");
    await shows(page, "alice", ["bob", "four", "four"]);
    await page.browser.keys(LEFT);
    await shows(page, "alice", ["bob", "", ""]);
    await shows(page, "bob", ["alice", "four", ""]);
    await page.agrees();
  }));

test("a caret goes along with what its owner types, without a frame in which it is elsewhere", () =>
  withPage(async (page) => {
    await page.type("alice", "one two three");
    await page.select("alice", "two");
    await page.browser.keys(LEFT);
    await shows(page, "bob", ["alice", "one ", ""]);
    await watchCaret(page, "bob");
    await page.browser.run(() => {
      window.asked = 0;
      const send = WebSocket.prototype.send;
      WebSocket.prototype.send = function (data) {
        window.asked += String(data).includes('"places"');
        return send.call(this, data);
      };
    });
    for (let key = 0; key < 40; key += 1) {
      await page.browser.keys("x");
      await pause(120 * Math.random());
    }
    await page.browser.keys(BACKSPACE.repeat(5));
    await shows(page, "bob", ["alice", `one ${"x".repeat(35)}`, ""]);
    await pause(600);
    assert.deepEqual(await page.browser.run(() => window.seen), ["two three"]);
    const asked = await page.browser.run(() => window.asked);
    assert(asked < 20, `places were asked for ${asked} times`);
    await page.browser.keys(ENTER);
    await shows(page, "bob", ["alice", "", ""]);
  }));

test("a caret stays with its text beside what others type before it, at it and after it", () =>
  withPage(async (page) => {
    await page.type("alice", "one two three");
    await page.select("alice", "two");
    await page.browser.keys(RIGHT);
    await shows(page, "bob", ["alice", "one two", ""]);
    const session = await page.session("bob");
    for (const [at, before] of [[0, "Xone two"], [8, "Xone two"], [10, "Xone two"], [3, "XonXe two"]]) {
      await session.document(FIRST).insert(at, "X");
      await pause(700);
      assert.deepEqual(await carets(page, "bob"), [["alice", before, ""]], `put in at ${at}`);
    }
    await session.document(FIRST).delete(7, 4);
    await pause(700);
    assert.deepEqual(await carets(page, "bob"), [["alice", "XonXe t", ""]]);
    await session.close();
    // At bob's own caret, too.
    await page.goTo("bob");
    await page.browser.run(() => {
      const { firstChild } = document.querySelector("#bob .ProseMirror p");
      getSelection().collapse(firstChild, firstChild.length);
    });
    await pause(60);
    await page.browser.keys("YZ");
    await page.agrees();
    await pause(500);
    assert.deepEqual((await carets(page, "bob"))[0].slice(0, 2), ["alice", "XonXe t"]);
    assert.deepEqual(await carets(page, "alice"), [["bob", "XonXe tYZ", ""]]);
  }));

test("carets stay with their text while both are parted, and come with what is typed once they are joined", () =>
  withPage(async (page) => {
    await page.type("alice", "one two three");
    await page.agrees();
    await page.goTo("bob");
    await page.select("bob", "one");
    await shows(page, "bob", ["alice", "one two three", ""]);
    await page.browser.click("#link-switch");
    await page.link("parted");
    await page.select("alice", "two");
    await page.type("bob", "!");
    await page.select("bob", "one");
    await page.browser.keys(`${RIGHT},`);
    await shows(page, "bob", ["alice", "one, two", "two"]);
    // Beside what bob has alone, it isn't shown at alice.
    await shows(page, "alice");
    await page.type("alice", "?");
    await shows(page, "bob");
    await page.browser.click("#link-switch");
    await page.agrees();
    const text = await page.text("bob");
    assert.deepEqual([...text].sort(), [..."one, two three!?"].sort());
    await shows(page, "bob", ["alice", text.slice(0, text.indexOf("?") + 1), ""]);
    await shows(page, "alice", ["bob", "one,", ""]);
  }));

test("carets stay with their text while a daemon is killed, and once it runs again", () =>
  withPage(async (page) => {
    await page.type("alice", "one two three");
    await page.agrees();
    await page.select("bob", "two");
    await shows(page, "alice", ["bob", "one two", "two"]);
    await shows(page, "bob", ["alice", "one two three", ""]);
    for (const victim of ["alice", "bob"]) {
      await page.power(victim);
      await page.daemonIs(victim, "ended");
      await page.type("alice", "!");
      await pause(1_500);
      assert.deepEqual(await carets(page, "alice"), [["bob", "one two", "two"]]);
      await page.power(victim);
      await page.daemonIs(victim, "running");
      await page.agrees();
      await shows(page, "alice", ["bob", "one two", "two"]);
      await shows(page, "bob", ["alice", await page.text("alice"), ""]);
    }
  }));

test("another window's carets are shown, and gone three seconds after it is left", () =>
  withPage(async (page) => {
    await page.type("alice", "one");
    const other = await Browser.start();
    await other.open(page.address);
    await other.until(() => document.querySelectorAll(".ProseMirror").length === 2);
    await other.until(() => document.querySelector("#alice .caret")?.dataset.name === "alice");
    await other.run(() => {
      document.querySelector("#alice .ProseMirror").focus();
      getSelection().collapse(document.querySelector("#alice .ProseMirror p").firstChild, 0);
    });
    await shows(page, "alice", ["alice", "", ""]);
    await page.browser.until(() => document.querySelectorAll("#bob .caret").length === 2);
    await pause(4_000);
    assert.equal((await carets(page, "bob")).length, 2);
    const left = Date.now();
    await other.open("about:blank");
    await shows(page, "alice");
    const took = Date.now() - left;
    assert(took > 1_500 && took < 5_000, `gone after ${took} ms`);
    await shows(page, "bob", ["alice", "one", ""]);
  }));

test("a caret is no text: nothing of it is read, copied, or sent to a daemon", () =>
  withPage(async (page) => {
    await page.type("alice", "one");
    await shows(page, "bob", ["alice", "one", ""]);
    assert.equal(await page.text("bob"), "one");
    const caret = await page.browser.run(() => {
      const found = document.querySelector("#bob .caret");
      const width = found.getBoundingClientRect().width + 2 * parseFloat(getComputedStyle(found).marginLeft);
      return { hidden: found.getAttribute("aria-hidden"), isEditable: found.isContentEditable, text: found.textContent, width };
    });
    assert.deepEqual(caret, { hidden: "true", isEditable: false, text: "", width: 0 });
    await page.type("bob", "!");
    await page.agrees();
    assert.deepEqual(await page.spans("alice"), [{ text: "one!" }]);
    // A screen reader gets the text alone.
    assert.equal(await page.browser.label("#bob .ProseMirror"), "What bob writes");
  }));

test("a name is whole in a narrow window, at each end of a line, and on the first line", () =>
  withPage(async (page) => {
    await page.type("alice", "quick brown fox ".repeat(20));
    await page.agrees();
    for (const width of [390, 1100]) {
      await page.browser.resize(width, 900);
      for (const at of [0, 12, 20, 28, 36, 44, 100]) {
        await page.browser.run((index) => {
          document.querySelector("#alice .ProseMirror").focus();
          getSelection().collapse(document.querySelector("#alice .ProseMirror p").firstChild, index);
        }, at);
        await shows(page, "bob", ["alice", "quick brown fox ".repeat(20).slice(0, at), ""]);
        await pause(100);
        const name = await page.browser.run(() => {
          const caret = document.querySelector("#bob .caret");
          const style = getComputedStyle(caret, "::after");
          const place = caret.getBoundingClientRect();
          const size = parseFloat(style.width) + 2 * parseFloat(style.paddingLeft);
          const left = caret.matches(".turned") ? place.right - size : place.left;
          const editor = document.querySelector("#bob .ProseMirror").getBoundingClientRect();
          const isWhole = left >= editor.left && left + size <= editor.right;
          const isLarge = parseFloat(style.fontSize) >= 11;
          return { text: style.content, isWhole, isLarge, scrolls: document.documentElement.scrollWidth > innerWidth };
        });
        assert.deepEqual(name, { text: '"alice"', isWhole: true, isLarge: true, scrolls: false }, `at ${at}, ${width} wide`);
      }
    }
  }));

test("a name is read on each colour, and each colour seen on white and on black", () =>
  withPage(async (page) => {
    await page.type("alice", "one");
    await shows(page, "bob", ["alice", "one", ""]);
    const colours = await page.browser.run(() => {
      const caret = document.querySelector("#bob .caret");
      return [...Array(6).keys()].map((colour) => {
        caret.className = `caret person-${colour}`;
        const { backgroundColor, color } = getComputedStyle(caret, "::after");
        return [getComputedStyle(caret).borderLeftColor, backgroundColor, color];
      });
    });
    const shine = (colour) => {
      const linear = (part) => (part <= 0.04045 ? part / 12.92 : ((part + 0.055) / 1.055) ** 2.4);
      const [red, green, blue] = colour.match(/\d+/g).map((part) => linear(part / 255));
      return 0.2126 * red + 0.7152 * green + 0.0722 * blue;
    };
    for (const [line, ground, text] of colours) {
      assert.deepEqual([line, text], [ground, "rgb(255, 255, 255)"]);
      assert(1.05 / (shine(ground) + 0.05) >= 4.5, `white on ${ground}`);
      assert((shine(ground) + 0.05) / 0.05 >= 3, `${ground} on black`);
    }
    assert.equal(new Set(colours.map(([line]) => line)).size, 6);
  }));
