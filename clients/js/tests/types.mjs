// The types: those of the modules hold, those in `types/` are made of them, and a program in TypeScript finds them.

import assert from "node:assert/strict";
import { spawnSync } from "node:child_process";
import { cpSync, mkdirSync, readFileSync, readdirSync, symlinkSync, writeFileSync } from "node:fs";
import { join } from "node:path";
import { test } from "node:test";
import { fileURLToPath } from "node:url";

import { withFile } from "./support.mjs";

const CLIENT = fileURLToPath(new URL("..", import.meta.url));
const EXAMPLES = fileURLToPath(new URL("../../../examples/", import.meta.url));
const OUTSIDE = join(CLIENT, "tests", "types");
/** Another one may write the same types in other words. */
const WRITTEN_BY = "4.8";
const version = /\d+\.\d+/.exec(spawnSync("tsc", ["--version"], { encoding: "utf8" }).stdout ?? "")?.[0];
const skip = version === undefined ? "tsc isn't installed (Debian's node-typescript)" : false;

/** Has `tsc` find nothing wrong. */
function pass(words) {
  const { stdout, stderr, status } = spawnSync("tsc", words, { encoding: "utf8" });
  assert.deepEqual([stdout + stderr, status], ["", 0]);
}

/** The files below a folder, by their names there. */
function filesOf(folder) {
  return readdirSync(folder, { recursive: true }).filter((name) => name.endsWith(".ts")).sort();
}

test("the types of the modules hold, and those that are kept are made of them: `tsc -p clients/js` makes them anew", { skip }, (context) =>
  withFile(async (_, folder) => {
    // It checks all of them, too.
    pass(["-p", CLIENT, "--outDir", join(folder, "types")]);
    if (version !== WRITTEN_BY) return context.diagnostic(`skipped: those that are kept are of tsc ${WRITTEN_BY}, and this is ${version}`);
    const [made, kept] = [join(folder, "types"), join(CLIENT, "types")];
    assert.deepEqual(filesOf(made), filesOf(kept));
    for (const name of filesOf(made)) {
      const text = readFileSync(join(made, name), "utf8");
      assert(text === readFileSync(join(kept, name), "utf8"), `${name} isn't what its module says`);
      // What the tests have for editors isn't there for others.
      assert(!text.includes("tests/"), name);
    }
  }));

/** Runs a test with a folder of a program that has the client, as `npm install` puts it there, and the editors' modules. */
function withProgram(name, work) {
  return withFile(async (_, folder) => {
    const installed = join(folder, "node_modules");
    mkdirSync(installed);
    symlinkSync(CLIENT, join(installed, "peritext"));
    for (const file of readdirSync(OUTSIDE).filter((file) => /^(prosemirror|codemirror)-/.test(file))) {
      const library = join(installed, file.replace(".d.ts", "").replace("codemirror-", "@codemirror/"));
      cpSync(join(OUTSIDE, file), join(library, "index.d.ts"));
      writeFileSync(join(library, "package.json"), '{"type": "module", "exports": {"types": "./index.d.ts"}}');
    }
    writeFileSync(join(folder, "package.json"), '{"type": "module"}');
    cpSync(join(OUTSIDE, name), join(folder, name));
    await work(join(folder, name));
  });
}

const STRICT = ["--strict", "--noEmit", "--target", "es2022", "--lib", "es2022,dom", "--module", "nodenext", "--moduleResolution", "nodenext"];

test("a program in TypeScript has them", { skip }, () =>
  withProgram("uses.ts", (program) => pass([...STRICT, "--preserveSymlinks", program])));

test("those of the examples hold", { skip }, () => {
  const names = readdirSync(EXAMPLES).filter((name) => name.endsWith(".mjs"));
  assert.equal(names.length, 2);
  pass(["--allowJs", "--checkJs", ...STRICT, ...names.map((name) => EXAMPLES + name), join(OUTSIDE, "node.d.ts")]);
});
