// What several tests start.

import { mkdtempSync, rmSync } from "node:fs";
import { tmpdir } from "node:os";
import { join, resolve } from "node:path";

import { Demo } from "../src/demo.js";
import { starts } from "./timed.mjs";

export const PROGRAM = resolve(process.env.PERITEXT || "bin/peritext");

/** A folder that is gone after the test. */
export function newFolder() {
  const folder = mkdtempSync(join(tmpdir(), "peritext-demo-"));
  starts(() => rmSync(folder, { recursive: true }));
  return folder;
}

/** A demo, not started, that has stopped after the test. */
export function newDemo(folder = newFolder()) {
  const demo = new Demo(PROGRAM, folder);
  starts(() => demo.stop(), () => demo.kill());
  return demo;
}
