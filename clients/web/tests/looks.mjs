// How the page looks: in light and in dark all words are read, and in a narrow window nothing is cut off; and all of it has a name.

import assert from "node:assert/strict";

import { finds } from "./find_stand_in.mjs";
import { withPage } from "./page.mjs";
import { cutOff, dim } from "./sight.mjs";
import { test } from "./timed.mjs";

const WIDTHS = [390, 1280];

/** How many colours there are for comments, for writers, and for carets. */
const COLOURS = 6;

/** A page with all that it can show. */
async function filled(page) {
  await finds(page);
  await page.type("alice", "The quick fox jumps over the lazy dog, and more");
  await page.agrees();
  await page.comment("alice", "quick fox", "Is it a red one? With words that take more than one line of a narrow window.");
  await page.comment("bob", "lazy dog", "Done");
  // With a ground of its own, and without.
  await page.select("bob", "fox jumps");
  await page.press("bob", "link");
  await page.browser.until(() => document.querySelectorAll("#alice a").length > 0);
  await page.nameText("alice", "make", "Shopping");
  await page.nameText("alice", "make", "A text with a rather long name, as some have it");
  await page.openText("alice", "First text");
  for (const name of ["alice", "bob"]) await page.press(name, "writers");
  await page.browser.click("#bob .chip:nth-child(2) .show");
  await page.browser.click('#bob [data-does="turn"]');
  await page.browser.click("#alice .chip .show");
  await page.browser.click('#bob [data-names="make"]');
  await page.goTo("alice");
  await page.press("alice", "comment");
  await page.browser.until(() => document.querySelectorAll(".written").length > 4);
  await page.press("bob", "find");
  await page.browser.keys("o");
  await page.browser.until(() => document.querySelectorAll("#bob .found.current").length > 0 && document.querySelectorAll("#bob .found").length > 2);
}

/** Has all comments, writers and carets be in one of the colours that there are. */
function inColour(page, number) {
  return page.browser.run((given) => {
    const rules = ["hue", "writer", "person"].map((kind) => {
      const probe = document.createElement("i");
      probe.className = `${kind}-${given}`;
      document.body.append(probe);
      const value = getComputedStyle(probe).getPropertyValue(`--${kind}`);
      probe.remove();
      return `[class*="${kind}-"] { --${kind}: ${value} !important; }`;
    });
    window.sheet ??= new CSSStyleSheet();
    window.sheet.replaceSync(rules.join("\n"));
    document.adoptedStyleSheets = [...document.adoptedStyleSheets.filter((sheet) => sheet !== window.sheet), window.sheet];
  }, number);
}

for (const scheme of ["light", "dark"]) {
  test(`in ${scheme} all words can be read, and nothing is cut off in a narrow window or a wide one`, () =>
    withPage(async (page) => {
      await page.browser.scheme(scheme);
      await filled(page);
      for (const width of WIDTHS) {
        await page.browser.resize(width, 900);
        await page.browser.until((wanted) => Math.abs(innerWidth - wanted) < 40, width);
        for (let colour = 0; colour < COLOURS; colour += 1) {
          await inColour(page, colour);
          assert.deepEqual(await dim(page), [], `at ${width} in colour ${colour}`);
        }
        assert.deepEqual(await cutOff(page), [], `at ${width}`);
      }
      const isDark = await page.browser.run(() => getComputedStyle(document.body).backgroundColor === "rgb(18, 22, 27)");
      assert.equal(isDark, scheme === "dark");
    }));
}

test("each control and each part has a name of its own that a screen reader speaks, and each state is told once", () =>
  withPage(async (page) => {
    await filled(page);
    const selector = "button, input, textarea, .ProseMirror, [role=toolbar], [role=group]:not([hidden]), nav, section.thread:not([hidden]), ul.writers:not([hidden])";
    const count = await page.browser.run((all) => [...document.querySelectorAll(all)].map((one, index) => (one.dataset.nth = index)).length, selector);
    const names = await Promise.all([...Array(count).keys()].map((index) => page.browser.label(`[data-nth="${index}"]`)));
    assert(!names.includes(""), String(names));
    assert.equal(new Set(names).size, names.length, String(names));
    const regions = await page.browser.run(() => document.querySelectorAll("output, [aria-live], [role=status], [role=alert], [role=log]").length);
    assert.equal(regions, 1);
  }));
