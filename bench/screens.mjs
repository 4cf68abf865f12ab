// From a key on one side of the page to the other side's screen: node bench/screens.mjs [FOLDER] [KEYS]
// FOLDER is a tree with clients/web, this one unless it is given; PERITEXT names the program. It takes what `make test-demo` takes.
// Prints the median, the 9th decile and the most of some keys, in milliseconds, each pressed after a pause of 0 to 400 by chance.

import { dirname, join, resolve } from "node:path";
import { fileURLToPath } from "node:url";

const [folder = join(dirname(fileURLToPath(import.meta.url)), ".."), keys = "100"] = process.argv.slice(2);
const tests = join(resolve(folder), "clients/web/tests");
const { pause, withPage } = await import(join(tests, "page.mjs"));
const { test } = await import(join(tests, "timed.mjs"));

/** Has the page note when a key goes down over there, and when the text changes over here. */
function watch() {
  window.pressed = [];
  window.shown = [];
  document.querySelector("#alice .ProseMirror").addEventListener("keydown", () => window.pressed.push(performance.now()), true);
  const note = () => requestAnimationFrame(() => window.shown.push(performance.now()));
  new MutationObserver(note).observe(document.querySelector("#bob .ProseMirror"), { subtree: true, childList: true, characterData: true });
}

/** The time of a key until the first frame after it with something new. */
function times() {
  return window.pressed.map((at) => window.shown.find((then) => then > at) - at);
}

test("screens", () =>
  withPage(async (page) => {
    await page.type("alice", "begun ");
    await page.agrees();
    await pause(1_000);
    await page.browser.run(watch);
    for (let key = 0; key < Number(keys); key += 1) {
      await pause(400 * Math.random());
      await page.browser.keys("x");
      await page.agrees();
      await pause(50);
    }
    const found = (await page.browser.run(times)).sort((a, b) => a - b);
    const at = (part) => found[Math.floor(part * (found.length - 1))].toFixed(1);
    console.log(`${found.length} keys: median ${at(0.5)} ms, 9th decile ${at(0.9)} ms, most ${at(1)} ms`);
  }));
