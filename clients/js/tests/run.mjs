// The client's tests: node clients/js/tests/run.mjs
// Those over the real program take its path from PERITEXT; those of the binding take Debian's node-prosemirror packages.

import { spawnSync } from "node:child_process";
import { existsSync } from "node:fs";
import { fileURLToPath } from "node:url";

import { LIBRARIES } from "./support.mjs";

const program = process.env.PERITEXT || undefined;
const hasEditor = existsSync(`${LIBRARIES}/prosemirror-state`);

function run(name, missing) {
  if (missing !== undefined) return console.log(`skipped: ${name}, ${missing}`);
  const file = fileURLToPath(new URL(`${name}.mjs`, import.meta.url));
  const words = ["--test-reporter=spec", "--test", file];
  const { status } = spawnSync(process.execPath, words, { stdio: "inherit", env: { ...process.env, NODE_PATH: LIBRARIES } });
  if (status !== 0) process.exitCode = 1;
}

const noProgram = program === undefined ? "for PERITEXT names no program" : undefined;
const noWebSocket = globalThis.WebSocket || existsSync(`${LIBRARIES}/ws`) ? undefined : "for there is no WebSocket before Node 22, and node-ws isn't installed";
const noEditor = hasEditor ? undefined : "for node-prosemirror-state isn't installed";
run("client");
run("actions");
run("cuts");
run("limits");
run("again");
run("changing");
run("found");
run("counted");
run("past");
run("watch_many");
run("modelled");
run("following");
run("unfollowed");
run("aborts");
run("given_up");
run("signals");
run("types");
run("file", noProgram);
run("places", noProgram);
run("placed", noProgram);
run("changes", noProgram);
run("daemon", noProgram);
run("watch", noProgram);
run("follow", noProgram);
run("web", noProgram ?? noWebSocket);
run("slow", noProgram);
run("programs", noProgram);
run("editing");
run("paragraphs", noEditor);
run("binding", noEditor);
run("resume", noEditor);
run("agreement", noEditor);
run("beside", noEditor);
run("histories", noEditor);
run("quill_binding");
run("quill_histories");
run("late_line");
run("codemirror_binding");
run("codemirror_histories");
run("editors", noProgram ?? noEditor);
run("examples");
