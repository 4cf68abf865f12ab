// Tests with a clock each: one whose time is over fails by its name, and the others go on. However a test ends, so does what it started.

import { after, test as untimed } from "node:test";

/** Milliseconds that one test may take, beside the kills that are asked for; TEST_SECONDS says another time. */
const TIME = 1000 * (Number(process.env.TEST_SECONDS || 120) + Number(process.env.KILL_SECONDS || 0));

/** Milliseconds until this process ends though a test that never ended holds something open. */
const GRACE = 10_000;

/** What ends that which the running test started, and what kills all that was ever started. */
const ends = [];
const kills = [];
let running = "none";
let isEnding = false;

export function test(name, work) {
  untimed(name, { timeout: TIME }, async (context) => {
    running = name;
    context.after(endAll);
    await work();
  });
}

/**
 * Tells of what a test starts, as soon as it does. The last one is ended first.
 * @param {() => unknown} end is called once the test is over, and ends it in order
 * @param {() => void} kill is called as this process ends, and ends at once what still runs
 */
export function starts(end, kill = () => {}) {
  ends.push(end);
  kills.push(kill);
}

async function endAll() {
  while (ends.length > 0) await ends.pop()();
}

after(() => setTimeout(() => process.exit(), GRACE).unref());
process.on("exit", () => kills.forEach((kill) => kill()));

for (const signal of ["SIGINT", "SIGTERM", "SIGHUP"]) process.on(signal, endBy);

/** Ctrl-C comes twice: from the terminal, and from run.mjs. */
async function endBy(signal) {
  if (isEnding) return;
  isEnding = true;
  console.error(`${signal}: ended while this test ran: ${running}`);
  setTimeout(() => process.exit(1), GRACE);
  await endAll();
  process.exit(1);
}
