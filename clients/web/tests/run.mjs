// The tests of the page and what serves it: node clients/web/tests/run.mjs
// PERITEXT names the program, PICTURES a folder for pictures of the page, TEST_SECONDS how long one test may take. What can't be tested here is said,
// with what to install.

import { spawn, spawnSync } from "node:child_process";
import { once } from "node:events";
import { existsSync } from "node:fs";
import { fileURLToPath } from "node:url";

import { LIBRARIES, missing } from "../src/packages.js";

let child;
let isOver = false;

async function run(name, lack) {
  if (isOver) return;
  if (lack !== undefined) return console.log(`skipped: ${name}, ${lack}`);
  const file = fileURLToPath(new URL(`${name}.mjs`, import.meta.url));
  child = spawn(process.execPath, ["--test-reporter=spec", file], { stdio: "inherit", env: { ...process.env, NODE_PATH: LIBRARIES } });
  const [status] = await once(child, "exit");
  if (status !== 0) process.exitCode = 1;
}

/** What is missing, in words that say what to do; or nothing. */
function missingBrowser() {
  const isThere = (program) => spawnSync(program, ["--version"], { stdio: "ignore" }).error === undefined;
  const names = ["chromium", "chromedriver"].filter((program) => !isThere(program));
  return names.length === 0 ? undefined : `for there is no ${names.join(" and no ")}: apt-get install chromium chromium-driver`;
}

// The tests end what they started.
for (const signal of ["SIGINT", "SIGTERM", "SIGHUP"]) {
  process.on(signal, () => {
    isOver = true;
    child?.kill(signal);
  });
}

const program = process.env.PERITEXT || "bin/peritext";
const noProgram = existsSync(program) ? undefined : `for there is no program ${program}: make peritext`;
await run("address");
await run("page_server", missing());
await run("presence", missing());
await run("demo", missing() ?? noProgram);
await run("kills", missing() ?? noProgram);
await run("lists", missing() ?? noProgram);
await run("told_of_all", missing());
const shown = ["carets", "texts", "search", "past", "comments", "threads", "authors", "looks", "tools", "pasting", "selection"];
for (const name of ["clock", "browser", "places", "background", ...shown, "typing", "wire"]) await run(name, missing() ?? noProgram ?? missingBrowser());
