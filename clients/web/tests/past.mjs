// The history of a text: by keys, with who made each version, in light and in dark, and in a narrow window.

import assert from "node:assert/strict";

import { FIRST, withPage } from "./page.mjs";
import { cutOff, dim } from "./sight.mjs";
import { test } from "./timed.mjs";

const LEFT = "\uE012";
const HOME = "\uE011";
const ESCAPE = "\uE00C";

/** Waits until a side shows a text as it was, and says who made that version. */
function was(page, name, html, made) {
  const isShown = (id, wanted, words) => {
    const card = document.querySelector(`#${id}`);
    const said = [card.querySelector(".made")?.textContent, card.querySelector(".past input")?.getAttribute("aria-valuetext")];
    return card.querySelector(".was").innerHTML === wanted && said.every((it) => it === words);
  };
  return page.browser.until(isShown, name, html, made);
}

test("a text is shown as it was, with who made each version, by keys alone", () =>
  withPage(async (page) => {
    const { browser } = page;
    const isAt = (selector) => browser.until((wanted) => document.activeElement.matches(wanted), selector);
    const text = browser;
    await page.link("linked");
    await page.type("alice", "one");
    await page.agrees();
    await page.type("bob", " two");
    await page.agrees();
    await page.select("alice", "one");
    await browser.keys("b", { control: true });
    await page.agrees();
    await page.press("alice", "history");
    await isAt("#alice .past input");
    await was(page, "alice", "<p><strong>one</strong> two</p>", "8 of 8: alice, 1 operation");
    const names = { ".past": "History of what alice sees", ".past input": "Version for alice", ".was": "The text as it was for alice", "[data-past]": "Back to now for alice" };
    for (const [part, label] of Object.entries(names)) assert.equal(await browser.label(`#alice ${part}`), label);
    // Nothing else can be done to the text of now, which goes on.
    const others = () => browser.run(() => [...document.querySelectorAll("#alice .tools :is(button, input)")].filter(({ disabled }) => !disabled).map((tool) => tool.dataset.do));
    assert.deepEqual(await others(), ["history"]);
    const session = await page.session("bob");
    await session.document(FIRST).insert(7, "!");
    await session.close();
    await page.shows("alice", "one two!");
    await browser.keys(LEFT);
    await was(page, "alice", "<p>one two</p>", "7 of 8: bob, 1 operation");
    await browser.keys(HOME);
    await was(page, "alice", "<p>o</p>", "1 of 8: alice, 1 operation");
    await browser.keys(ESCAPE);
    await isAt("#alice .ProseMirror");
    assert.equal(await browser.run(() => [...document.querySelectorAll("#alice :is(.past, .was)")].every(({ hidden }) => hidden)), true);
    await page.type("alice", "?");
    await page.shows("bob", "one two!?");
    await page.agrees();
    for (const name of ["alice", "bob"]) await page.press(name, "history");
    await was(page, "bob", "<p><strong>one</strong> two!?</p>", "10 of 10: alice, 1 operation");
    for (const scheme of ["light", "dark"]) {
      await browser.scheme(scheme);
      await browser.resize(390, 900);
      await browser.until(() => innerWidth < 430);
      assert.deepEqual([await dim(page), await cutOff(page)], [[], []], scheme);
    }
    // Another text is shown as it is.
    await browser.resize(1100, 700);
    await page.nameText("alice", "make", "Other");
    await page.press("alice", "history");
    await browser.until(() => document.querySelector("#alice .notice").textContent === "Nothing was written here yet.");
    // Without its daemon nobody tells.
    await page.power("bob");
    await page.daemonIs("bob", "ended");
    await browser.run(() => document.querySelector("#bob .past input").focus());
    await browser.keys(HOME);
    await browser.until(() => document.querySelector("#bob .past").hidden && document.activeElement.matches("#bob .ProseMirror"));
    assert.equal(await browser.run(() => document.querySelector("#bob .notice").textContent), "The daemon has to run for that.");
  }));
