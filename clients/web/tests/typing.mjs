// The page in a real browser, while its daemons are killed at random moments: each letter is there once. KILL_SECONDS says for how long.

import assert from "node:assert/strict";

import { NAMES } from "../src/demo.js";
import { pause, withPage } from "./page.mjs";
import { test } from "./timed.mjs";

const SECONDS = Number(process.env.KILL_SECONDS ?? 10);

/** How many letters are typed in one go, and the longest time from the first of them until a daemon is killed, in milliseconds. */
const LETTERS = 5;
const UNTIL_KILL = 150;

/** Letters of which each is another one, as a font of Chinese has them. */
const FIRST = 0x4e00;
const MOST = 20_000;

function one(names) {
  return names[Math.floor(names.length * Math.random())];
}

test("each letter that is typed while daemons are killed is there once", () =>
  withPage(async (page) => {
    const typed = [];
    let kills = 0;
    for (const until = Date.now() + 1000 * SECONDS; Date.now() < until && typed.length < MOST; ) {
      const letters = [...Array(LETTERS)].map((_, k) => String.fromCodePoint(FIRST + typed.length + k));
      typed.push(...letters);
      await page.goTo(one(NAMES));
      const typing = page.browser.keys(letters.join(""));
      if (Math.random() < 0.7) {
        const victim = one(NAMES);
        await pause(UNTIL_KILL * Math.random());
        page.demo.daemon(victim).kill();
        kills += 1;
        await typing;
        await page.daemonIs(victim, "ended");
        await page.power(victim);
        await page.daemonIs(victim, "running");
      }
      await typing;
    }
    await page.agrees();
    for (const name of NAMES) {
      const there = [...(await page.text(name))];
      assert.deepEqual(there.toSorted(), typed.toSorted(), `${name}, after ${kills} kills`);
    }
    assert(kills > 0 && typed.length > 0);
    console.log(`${typed.length} letters, ${kills} kills`);
  }));
