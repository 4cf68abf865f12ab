// A text area that all share who have the page open, with nothing to build: README.md says how to serve it.
import { Reading, Stale, applied, connectWeb, delta, watchWeb } from "../clients/js/src/index.js"; // "peritext", once it is installed

/** @type {(one: string, other: string) => {from: number, to: number, text: string}} where texts differ: `text` replaces `from` to `to` */
const difference = (one, other) => {
  const [before, after] = [[...one], [...other]];
  let [first, last] = [0, 0];
  while (first < before.length && before[first] === after[first]) first += 1;
  while (last < Math.min(before.length, after.length) - first && before.at(-1 - last) === after.at(-1 - last)) last += 1;
  const [kept, gone] = [before.slice(0, first).join(""), before.slice(first, before.length - last).join("")];
  return { from: kept.length, to: kept.length + gone.length, text: after.slice(first, after.length - last).join("") };
};

/** @type {(index: number, steps: import("../clients/js/src/index.js").Step[]) => number} where an index is after steps */
const moved = (index, steps) => {
  let [at, now] = [0, index];
  for (const step of steps) {
    if ("delete" in step) now = Math.max(now - step.delete, Math.min(at, now));
    else if ("insert" in step && at < now) now += step.insert.length;
    if (!("delete" in step)) at += "insert" in step ? step.insert.length : step.retain;
  }
  return now;
};

/** @type {(area: HTMLTextAreaElement, port: number, number: number) => Promise<void>} */
export const share = async (area, port, number) => {
  const document = (await connectWeb(port)).document(number);
  // What the daemon has, as far as was told here. In what the area differs from it was typed, and isn't sent yet.
  let known = await document.read();
  [area.value, area.disabled] = [known.text, false];
  const take = async () => {
    const since = await document.changes(known.rev).catch(() => undefined); // over another connection nobody may tell
    const spans = applied([{ text: known.text }], since?.steps ?? []);
    const now = since ? new Reading(document, spans.map(({ text }) => text).join(""), since.rev) : await document.read();
    const other = difference(known.text, now.text);
    const units = since ? delta(known.text, since.steps) : [{ retain: other.from }, { delete: other.to - other.from }, { insert: other.text }];
    const typed = difference(known.text, area.value);
    const [from, to] = [moved(typed.from, units), moved(typed.to, units)];
    // An index of the area is in what stands before the typed text, in that, or after it.
    const carets = [area.selectionStart, area.selectionEnd].map((index) => {
      const [inside, after] = [index - typed.from, index - typed.from - typed.text.length];
      if (after > 0) return moved(typed.to + after, units) - to + from + typed.text.length;
      return inside > 0 ? from + inside : moved(index, units);
    });
    area.value = now.text.slice(0, from) + typed.text + now.text.slice(to);
    area.setSelectionRange(carets[0], carets[1]);
    return (known = now);
  };
  const settle = async () => {
    for (await take(); area.value !== known.text; ) {
      const { from, to, text } = difference(known.text, area.value);
      const sent = to > from ? known.delete(from, to) : known.insert(from, text);
      known = await sent.catch((error) => (error instanceof Stale ? take() : Promise.reject(error)));
    }
  };
  let work = Promise.resolve();
  area.oninput = () => (work = work.then(settle));
  for await (const rev of watchWeb(port, number)) if (rev > known.rev) await (work = work.then(settle));
};
