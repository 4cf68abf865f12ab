// A bot that puts typographic quotes in the place of straight ones, as others type: node examples/quotes.mjs PORT DOCUMENT
// PORT is the daemon's `--sessions` port. Ctrl-C ends it.

import { setTimeout as pause } from "node:timers/promises";

import { Stale, connect, follow } from "../clients/js/src/node.js"; // "peritext", once it is installed

/** Milliseconds for which a writer is left alone with a quote. */
const PAUSE = 300;
const QUOTES = new Map([['"', ["“", "”"]], ["'", ["‘", "’"]]]);

const [port, number] = process.argv.slice(2).map(Number);
const ending = new AbortController();
for (const name of ["SIGINT", "SIGTERM"]) process.once(name, () => ending.abort());
const { signal } = ending;
const session = await connect(port, { signal });
const document = session.document(number);

/**
 * Replaces the quotes at these places, as far as they are still there: in just the text that is read, or it is `Stale`.
 * @param {string[]} anchors
 */
async function replace(anchors) {
  const { text, rev } = await document.read({ signal });
  const characters = [...text];
  /** @type {import("../clients/js/src/node.js").Edit[]} */
  const edits = [];
  for (const place of await document.places(anchors, { rev, signal })) {
    const quotes = place === null ? undefined : QUOTES.get(characters[place]);
    if (place === null || quotes === undefined) continue;
    const isOpening = place === 0 || /[\s([{‘“–—-]/.test(characters[place - 1]);
    characters[place] = quotes[isOpening ? 0 : 1];
    // The new one comes after the old one, whose marks it has then.
    edits.push({ op: "insert", at: place + 1, text: characters[place] }, { op: "delete", at: place, count: 1 });
  }
  if (edits.length > 0) await document.action(edits, { rev, signal, parted: true });
}

try {
  const shown = follow(port, number, { signal });
  for await (const { rev } of shown) {
    const places = [...shown.text].flatMap((character, place) => (QUOTES.has(character) ? [place] : []));
    // This session has to have read the document, before it may name a number that another one was told.
    await document.rev({ signal });
    try {
      const anchors = await document.anchors(places, "next", { rev, signal });
      // They stay with their quotes, whatever is typed meanwhile.
      await pause(PAUSE, undefined, { signal });
      await replace(anchors);
    } catch (error) {
      // The text has moved on: its change comes next.
      if (!(error instanceof Stale)) throw error;
    }
  }
} catch (error) {
  if (!signal.aborted) throw error;
}
await session.close();
