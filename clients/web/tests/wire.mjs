// The page's wire in a browser, over a server of WebSockets that answers once and then no more.

import assert from "node:assert/strict";
import { once } from "node:events";

import { Files } from "../src/files.js";
import { webSockets } from "../src/packages.js";
import { PageServer } from "../src/page_server.js";
import { test } from "./timed.mjs";
import { Browser } from "./webdriver.mjs";

const ANSWER = '{"applied":0,"ok":true,"settled":0,"state":"open"}';

/** Milliseconds without an answer that the page waits. */
const TIMEOUT = 1_000;

/** Runs a test in a page beside a server of WebSockets that answers the first message of each. */
async function withSessions(work) {
  const sessions = new (webSockets().WebSocketServer)({ host: "127.0.0.1", port: 0 });
  sessions.on("connection", (web) => web.once("message", () => web.send(ANSWER)));
  await once(sessions, "listening");
  const server = new PageServer({ files: new Files(), doors: { control: () => {}, presence: () => {} } });
  await server.listen();
  const browser = await Browser.start();
  try {
    await browser.open(server.address);
    await work(browser, sessions.address().port);
  } finally {
    server.close();
    for (const web of sessions.clients) web.terminate();
    sessions.close();
  }
}

/** Asks for the status twice, and gives what came of it. */
function asked(browser, port) {
  return browser.run(
    async (given, timeout) => {
      const [{ Session }, { Wire }] = await Promise.all([import("/client/index.js"), import("/wire.js")]);
      const session = new Session(new Wire(given), { timeout });
      const outcome = (answer) => answer.then(String, ({ message }) => message);
      return [await outcome(session.settled()), await outcome(session.settled())];
    },
    port,
    TIMEOUT,
  );
}

test("an answer is taken; where none comes the session ends", () =>
  withSessions(async (browser, port) => {
    const [first, none] = await asked(browser, port);
    assert.equal(first, "true");
    assert.match(none, /no byte came for 1000 milliseconds/);
  }));
