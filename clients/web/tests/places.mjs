// The places that a daemon has for sessions: what the page takes of them, and gives back.

import assert from "node:assert/strict";

import { watchMany } from "../../js/src/node.js";
import { FIRST, pause, withPage } from "./page.mjs";
import { test } from "./timed.mjs";

/** How many sessions a daemon has at once. */
const SESSIONS = 32;

/** How many of them a side of the page takes: a session, and one watch of all documents. */
const TAKEN = 2;

/** The same of an earlier daemon: a session, and a watch for its text and for each of the two lists. */
const TAKEN_EARLIER = 4;

test("pages that are left give their sessions back", () =>
  withPage(async (page) => {
    for (let again = 0; again < 20; again += 1) {
      await page.browser.open("about:blank");
      await page.browser.open(page.address);
    }
    await page.isRead();
    await page.type("bob", "still there");
    await page.shows("alice", "still there");
  }));

test("where all places are taken the page says so, and goes on once there is one", () =>
  withPage(async (page) => {
    await page.browser.open("about:blank");
    await pause(300);
    const held = await Promise.all([...Array(SESSIONS)].map(() => page.session("alice")));
    await page.browser.open(page.address);
    await page.browser.until(() => document.querySelector("#alice .notice").textContent.startsWith("8 busy"));
    await held[0].close();
    await page.isRead();
    await page.browser.until(() => document.querySelector("#alice .notice").textContent === "");
    await page.type("alice", "a place");
    await page.shows("bob", "a place");
    await Promise.all(held.slice(1).map((session) => session.close()));
  }));

/** Whether the daemons of a page tell of many documents over one connection. */
async function tellOfMany(page) {
  const told = watchMany(page.demo.daemon("alice").ports.sessions, [FIRST], { retry: null });
  const { number } = await told.next().catch((error) => error);
  told.close();
  return number === undefined;
}

test("a page takes two places of each daemon, or four of an earlier one, however many texts were opened in it", () =>
  withPage(async (page) => {
    const taken = (await tellOfMany(page)) ? TAKEN : TAKEN_EARLIER;
    const used = async () => {
      const session = await page.session("alice");
      const { sessions } = await session.peers();
      await session.close();
      return sessions - 1;
    };
    const takes = async (count) => {
      for (const end = Date.now() + 20_000; (await used()) !== count; await pause(100)) assert(Date.now() < end, `${await used()} places`);
    };
    await takes(taken);
    for (const name of ["One", "Two", "Three"]) {
      await page.nameText("alice", "make", name);
      await page.browser.keys(name);
      await page.shows("alice", name);
    }
    await page.savedIs("alice", "saved");
    await takes(taken);
    await page.openText("alice", "First text");
    await takes(taken);
  }));
