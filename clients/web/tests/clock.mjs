// A test whose time is over, or that is ended from outside: it is named, and nothing that it started is left.

import assert from "node:assert/strict";
import { spawn } from "node:child_process";
import { once } from "node:events";
import { mkdirSync, readFileSync, readdirSync } from "node:fs";
import { join } from "node:path";
import { fileURLToPath } from "node:url";

import { pause } from "./page.mjs";
import { newFolder } from "./support.mjs";
import { starts, test } from "./timed.mjs";

const LATE = fileURLToPath(new URL("late.mjs", import.meta.url));

/** Runs the tests of which one never ends. What they start has the folder in its environment or among its words. */
async function late(folder, seconds) {
  const temporary = join(folder, "temporary");
  mkdirSync(temporary);
  const env = { ...process.env, TMPDIR: temporary, TEST_SECONDS: seconds, KILL_SECONDS: "" };
  const child = spawn(process.execPath, ["--test-reporter=spec", LATE], { env });
  const ended = once(child, "close");
  const end = () => child.kill();
  starts(() => end() && ended, end);
  const processes = () => processesOf(temporary);
  const run = { child, said: "", ended, processes, left: () => leftOf(processes), files: () => readdirSync(temporary) };
  const begun = new Promise((done) => {
    for (const stream of [child.stdout, child.stderr]) {
      stream.setEncoding("utf8").on("data", (part) => {
        run.said += part;
        if (run.said.includes("begun")) done();
      });
    }
  });
  await Promise.race([begun, run.ended]);
  return run;
}

/** What is left of some processes once those have ended that do so: a killed one takes a moment. */
async function leftOf(processes) {
  for (let looks = 50; processes().length > 0 && looks > 0; looks -= 1) await pause(100);
  return processes();
}

/** The numbers of the processes that have a text among their words, or in their environment. */
function processesOf(text) {
  const has = (pid, file) => {
    try {
      return readFileSync(`/proc/${pid}/${file}`, "utf8").includes(text);
    } catch {
      return false;
    }
  };
  const pids = readdirSync("/proc").filter((name) => /^\d+$/.test(name));
  return pids.filter((pid) => ["environ", "cmdline"].some((file) => has(pid, file)));
}

test("a test whose time is over is named, the next one is made, and nothing is left", async () => {
  const run = await late(newFolder(), "15");
  assert(run.processes().length > 4, `a browser and two daemons: ${run.processes()}`);
  const [status] = await run.ended;
  assert.equal(status, 1);
  assert.match(run.said, /✖ this one never ends .*\n.*timed out after 15000ms/);
  assert.match(run.said, /✔ this one comes after it/);
  assert.deepEqual([await run.left(), run.files()], [[], []]);
});

test("tests that are ended say which one ran, and nothing is left", async () => {
  for (const signal of ["SIGTERM", "SIGINT"]) {
    const run = await late(newFolder(), "60");
    run.child.kill(signal);
    run.child.kill(signal);
    const [status] = await run.ended;
    assert.equal(status, 1);
    assert.match(run.said, new RegExp(`${signal}: ended while this test ran: this one never ends`));
    assert.deepEqual([await run.left(), run.files()], [[], []]);
  }
});
