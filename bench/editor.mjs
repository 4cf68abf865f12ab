// What an editor costs that is bound to a document: node bench/editor.mjs [FOLDER] [CHARACTERS]
// FOLDER is a tree with clients/js, this one unless it is given; PERITEXT names the program. It takes Debian's node-prosemirror-* packages.
//
// Over one daemon: keys in the middle of a text of so many characters, each until it shows and until it is answered; keys of somebody else
// until they show; a paste of 50,000, and an insert of as many without an editor. Prints milliseconds of node's processor time, and of the clock.

import { dirname, join, resolve } from "node:path";
import { fileURLToPath } from "node:url";

const [folder = join(dirname(fileURLToPath(import.meta.url)), ".."), characters = "100000"] = process.argv.slice(2);
const tests = join(resolve(folder), "clients/js/tests");
const { View, plainSchema, prosemirror } = await import(join(tests, "support.mjs"));
const { withDaemon } = await import(join(tests, "served.mjs"));
const { connect } = await import(join(resolve(folder), "clients/js/src/node.js"));
const { bind } = await import(join(resolve(folder), "clients/js/src/prosemirror.js"));

const KEYS = 200;
const PASTED = 50_000;
const LINE = "The quick brown fox jumps over the lazy dog. \n";

const modules = prosemirror();
const schema = plainSchema(modules.model);

/** What some work takes, in milliseconds. */
async function timed(work) {
  const [clock, processor] = [performance.now(), process.cpuUsage()];
  await work();
  const { user, system } = process.cpuUsage(processor);
  return { processor: (user + system) / 1_000, clock: performance.now() - clock };
}

/** An editor over a session of its own. */
async function editor(port) {
  const document = (await connect(port, { timeout: null })).document(1);
  const binding = await bind(modules, schema, document);
  const state = modules.state.EditorState.create({ doc: binding.doc, plugins: [binding.plugin] });
  return { binding, document, view: new View(null, { state }) };
}

function tell(what, { processor, clock }, count = 1) {
  console.log(`${what}: ${(processor / count).toFixed(2)} ms of the processor, ${(clock / count).toFixed(2)} ms by the clock`);
}

async function keys({ view, binding }) {
  const shown = [];
  const all = await timed(async () => {
    for (let key = 0; key < KEYS; key += 1) {
      const { tr, doc } = view.state;
      const at = modules.state.TextSelection.near(doc.resolve(Math.floor(doc.content.size / 2) + key)).from;
      shown.push(await timed(() => view.dispatch(tr.insertText("x", at))));
      await binding.settled();
    }
  });
  const sum = (field) => shown.reduce((total, it) => total + it[field], 0);
  tell("a key until it shows", { processor: sum("processor"), clock: sum("clock") }, KEYS);
  tell("a key until it is answered", all, KEYS);
}

async function others({ binding }, { document }) {
  const { rev } = await document.readSpans();
  let processor = 0;
  let clock = 0;
  for (let key = 0; key < KEYS; key += 1) {
    await document.insert(7 * key, "y");
    const took = await timed(() => binding.pull());
    processor += took.processor;
    clock += took.clock;
  }
  tell("another's key until it shows", { processor, clock }, KEYS);
  return rev;
}

async function paste({ view, binding }, text) {
  const { model } = modules;
  const slice = new model.Slice(model.Fragment.from(text.split("\n").map((line) => schema.node("paragraph", null, line === "" ? [] : [schema.text(line)]))), 1, 1);
  tell(`a paste of ${PASTED} characters`, await timed(async () => {
    view.dispatch(view.state.tr.replace(1, 1, slice));
    await binding.settled();
  }));
}

await withDaemon(async ({ port }) => {
  const document = (await connect(port, { timeout: null })).document(1);
  await document.insert(0, LINE.repeat(Number(characters) / LINE.length + 1).slice(0, Number(characters)));
  console.log(`a text of ${characters} characters`);
  const [one, other] = [await editor(port), await editor(port)];
  await keys(one);
  await others(one, other);
  const text = LINE.repeat(PASTED / LINE.length + 1).slice(0, PASTED);
  await paste(one, text);
  tell(`an insert of ${PASTED} characters`, await timed(() => other.document.insert(0, text)));
  process.exitCode = 0;
});
process.exit();
