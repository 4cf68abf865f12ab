// The examples of README.md, and the one of the first page, run as they stand: over the program that PERITEXT names, or else over its model.

import assert from "node:assert/strict";
import { existsSync, mkdirSync, readFileSync, symlinkSync } from "node:fs";
import { delimiter, join, resolve } from "node:path";
import { test } from "node:test";

import { Session } from "peritext";

import * as codemirror from "./codemirror.mjs";
import { Store } from "./fake.mjs";
import { Quill } from "./quill.mjs";
import { LIBRARIES, MODEL, View, library, plainSchema, prosemirror, withFile } from "./support.mjs";

const examples = examplesOf("../README.md");
const AsyncFunction = (async () => {}).constructor;

function examplesOf(name) {
  const page = readFileSync(new URL(name, import.meta.url), "utf8");
  return [...page.matchAll(/^```js\n(.*?)^```$/gms)].map(([, code]) => code);
}

/** Runs an example, and gives what it exports and what it printed. */
async function run(code, exported = "undefined") {
  const body = code
    .replace(/^import \* as (\w+) from (".*");/gm, "const $1 = await modules($2);")
    .replace(/^import (\{.*\}) from (".*");$/gm, "const $1 = await modules($2);")
    .replace(/^import (\w+) from (".*");/gm, "const { default: $1 } = await modules($2);")
    .replace(/^export /gm, "");
  const printed = [];
  const console = { log: (...words) => printed.push(words), error: assert.fail };
  const result = await new AsyncFunction("modules", "console", `${body}\nreturn ${exported};`)(modules, console);
  return { result, printed };
}

function modules(name) {
  if (name === "prosemirror-view") return { EditorView: View };
  if (name === "quill") return { default: Quill };
  if (name.startsWith("@codemirror/")) return codemirror[name.replace("@codemirror/", "")];
  return name.startsWith("prosemirror-") ? library(name) : import(name);
}

/** Runs a test in a folder of its own, where `peritext` is on the path. */
function withProgram(work) {
  return withFile(async (_, folder) => {
    const { PATH } = process.env;
    const before = process.cwd();
    mkdirSync(join(folder, "bin"));
    symlinkSync(resolve(process.env.PERITEXT || MODEL), join(folder, "bin", "peritext"));
    process.env.PATH = join(folder, "bin") + delimiter + PATH;
    process.chdir(folder);
    try {
      await work();
    } finally {
      process.chdir(before);
      process.env.PATH = PATH;
    }
  });
}

test("the first example makes a file and reads spans", () =>
  withProgram(async () => {
    const { printed } = await run(examples[0]);
    assert.deepEqual(printed, [["The quick fox", [{ text: "The " }, { strong: true, text: "quick" }, { text: " fox" }]]]);
  }));

test("the second example converts places", () =>
  withProgram(async () => {
    const { printed } = await run(examples[1]);
    assert.deepEqual(printed, [["😀 The quick red fox"]]);
  }));

test("the example of the first page prints the text", () =>
  withProgram(async () => {
    const [code, ...more] = examplesOf("../../../README.md");
    assert.equal(more.length, 0);
    assert.deepEqual((await run(code)).printed, [["The quick fox"]]);
  }));

const skip = existsSync(`${LIBRARIES}/prosemirror-state`) ? false : "node-prosemirror-state isn't installed";

test("the third example binds an editor", { skip }, async () => {
  const { result: edit } = await run(examples[2], "edit");
  const document = new Session(new Store().session()).document(1);
  const { binding, view } = await edit(null, plainSchema(prosemirror().model), document);
  view.dispatch(view.state.tr.insertText("abc", 1));
  await binding.settled();
  assert.equal(await document.text(), "abc");
});

test("the fourth example binds an editor of Quill", async () => {
  const { result: edit } = await run(examples[3], "edit");
  const document = new Session(new Store().session()).document(1);
  const { binding, quill } = await edit(null, document);
  quill.insertText(0, "abc", { bold: true }, "user");
  await binding.settled();
  assert.deepEqual(await document.spans(), [{ strong: true, text: "abc" }]);
});

test("the fifth example binds an editor of CodeMirror, and there is no other one", async () => {
  const { result: edit } = await run(examples[4], "edit");
  const document = new Session(new Store().session()).document(1);
  const { binding, view } = await edit(null, document);
  view.dispatch({ changes: { from: 0, insert: "abc" } });
  await binding.settled();
  assert.equal(await document.text(), "abc");
  assert.equal(examples.length, 5);
});
