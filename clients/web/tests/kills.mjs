// Two bindings over two daemons that are killed, started and parted at random: what was typed is there once, on both sides.

import assert from "node:assert/strict";

import { bind } from "../../js/src/prosemirror.js";
import { connect } from "../../js/src/node.js";
import { View, plainSchema, prosemirror } from "../../js/tests/support.mjs";
import { NAMES } from "../src/demo.js";
import { newDemo } from "./support.mjs";
import { starts, test } from "./timed.mjs";

const modules = prosemirror();
const schema = plainSchema(modules.model);

/** Letters that each writer types, and how often something happens to a daemon meanwhile. */
const LETTERS = 150;
const EVERY = 12;

function pause(milliseconds) {
  return new Promise((done) => setTimeout(done, milliseconds));
}

/** An editor without a page, which connects again as the page does. */
class Writer {
  isOver = false;

  constructor(daemon) {
    this.daemon = daemon;
    this.run = this.#run();
  }

  async #run() {
    while (!this.isOver) {
      // The daemon starts on other ports each time, so the binding is what goes on.
      const session = await connect(this.daemon.ports?.sessions ?? 1, { retry: null }).catch(() => undefined);
      try {
        if (session !== undefined) await this.#begin(session.document(1));
        while (session !== undefined && !this.isOver) {
          await this.binding.pull();
          await pause(10);
        }
      } catch (error) {
        if (error.name !== "Ended") throw error;
      }
      await session?.close();
      await pause(20);
    }
  }

  async #begin(document) {
    if (this.binding !== undefined) return this.binding.resume(document);
    this.binding = await bind(modules, schema, document);
    const state = modules.state.EditorState.create({ doc: this.binding.doc, plugins: [this.binding.plugin] });
    this.view = new View(null, { state });
  }

  end() {
    this.isOver = true;
    return this.run;
  }

  type(letter) {
    const { tr, doc } = this.view.state;
    this.view.dispatch(tr.insertText(letter, 1 + Math.floor(Math.random() * (doc.content.size - 1))));
  }

  get text() {
    return this.view.state.doc.textContent;
  }
}

async function until(isSo) {
  for (let left = 3_000; !isSo(); left -= 1) {
    assert(left > 0, "in vain was waited");
    await pause(10);
  }
}

test("what is typed is there once, whatever is killed", async () => {
  const demo = newDemo();
  await demo.start();
  const writers = NAMES.map((name) => new Writer(demo.daemon(name)));
  starts(() => Promise.all(writers.map((writer) => writer.end())));
  await until(() => writers.every(({ view }) => view !== undefined));
  for (let count = 0; count < LETTERS; count += 1) {
    writers.forEach((writer, index) => writer.type(String.fromCodePoint(0x4e00 + 2 * count + index)));
    const daemon = demo.daemon(NAMES[Math.floor(Math.random() * 2)]);
    if (count % EVERY === 0) daemon.kill();
    if (count % EVERY === EVERY / 2) await Promise.all(NAMES.map((name) => demo.daemon(name).start()));
    await pause(Math.random() * 30);
  }
  await Promise.all(NAMES.map((name) => demo.daemon(name).start()));
  await until(() => writers.every(({ binding, text }) => binding.waiting === 0 && text === writers[0].text && text.length >= 2 * LETTERS));
  assert.equal([...writers[0].text].sort().join(""), String.fromCodePoint(...[...Array(2 * LETTERS).keys()].map((n) => 0x4e00 + n)));
});
