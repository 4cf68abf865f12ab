// A page in the background: it asks for nothing meanwhile, and catches up at once.

import assert from "node:assert/strict";

import { FIRST, pause, withPage } from "./page.mjs";
import { test } from "./timed.mjs";

/** Has the page count what its sessions ask, and gives what they asked since the last time. */
function asked(page) {
  return page.browser.run(() => {
    if (window.asked === undefined) {
      const { send } = WebSocket.prototype;
      WebSocket.prototype.send = function (data) {
        const { op } = JSON.parse(String(data));
        if (op !== undefined) window.asked[op] = (window.asked[op] ?? 0) + 1;
        return send.call(this, data);
      };
    }
    const before = window.asked;
    window.asked = {};
    return before;
  });
}

test("what others typed while a page was in the background comes as one change on each side", () =>
  withPage(async (page) => {
    await page.type("alice", "one");
    await page.agrees();
    const session = await page.session("bob");
    await asked(page);
    await page.browser.background();
    await page.browser.until(() => document.hidden);
    await pause(300);
    await asked(page);
    for (let key = 0; key < 30; key += 1) {
      await session.document(FIRST).insert(key, "x");
      await pause(50);
    }
    await pause(1_000);
    assert.deepEqual(await asked(page), {});
    assert.deepEqual([await page.text("alice"), await page.text("bob")], ["one", "one"]);
    await page.browser.foreground();
    for (const name of ["alice", "bob"]) await page.shows(name, `${"x".repeat(30)}one`);
    const { changes } = await asked(page);
    assert.equal(changes, 2);
    await session.close();
  }));

test("what waits is sent while the page is in the background, and a daemon that runs again is found", () =>
  withPage(async (page) => {
    await page.type("alice", "one");
    await page.agrees();
    page.demo.daemon("alice").kill();
    await page.daemonIs("alice", "ended");
    await page.type("alice", " two");
    await page.savedIs("alice", "waiting");
    await page.browser.background();
    await page.browser.until(() => document.hidden);
    await page.demo.daemon("alice").start();
    await page.savedIs("alice", "saved");
    await page.browser.foreground();
    await page.agrees();
    assert.equal(await page.text("bob"), "one two");
  }));
