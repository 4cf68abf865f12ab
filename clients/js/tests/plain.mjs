// A plain model of editors over a store: it follows characters by ids, and says what is wrong. Each letter has to be another
// one, and is its own id. A break between paragraphs is known as the store's character, where the editor waits for nothing;
// else it has no id, and nothing is said of it.

import assert from "node:assert/strict";

import { marksOf } from "./model.mjs";

/** What an editor shows: the ids of its characters, the marks of each as values by keys, and its selection as places. */
export function shownBy({ look }, editor, document) {
  const { characters, from, to } = look(editor);
  const { binding } = editor;
  const there = binding.waiting === 0 ? document.at(binding.rev) : undefined;
  const ids = characters.map(({ text }, place) => (text === "\n" ? there?.[place] : text));
  return { ids, marks: characters.map(({ values }) => values), from, to, isWhole: there !== undefined, there, rev: binding.rev };
}

/** The values of marks of the store, by their keys. */
function valuesOfStored({ comments = [], ...others }) {
  return { ...others, ...Object.fromEntries(comments.map((id) => [id, true])) };
}

function isLetter(id) {
  return typeof id === "string";
}

export class Plain {
  /** The letters that were put in, those that somebody took away, and how many breaks. */
  #typed = new Set();
  #removed = new Set();
  #breaks = { typed: 0, removed: 0, most: 0 };
  /** For each letter, what was done to its marks and may hold at the end; and stretches that were marked as a whole. */
  #acts = new Map();
  #stretches = [];
  #document;
  #keys;
  #isExact;

  /** `isExact` is false where characters may go and come back as others: then it follows what is typed and taken away. */
  constructor(document, keys, isExact) {
    this.#document = document;
    this.#keys = keys;
    this.#isExact = isExact;
  }

  /** Somebody made another document of the one before: of some letters he `marked` a stretch as a whole. */
  follow(editor, before, after, marked) {
    const old = new Map(before.ids.map((id, place) => [id, before.marks[place]]));
    const now = new Set(after.ids);
    editor.removed ??= new Set();
    for (const id of before.ids.filter((id) => isLetter(id) && !now.has(id))) {
      this.#removed.add(id);
      editor.removed.add(id);
    }
    this.#countBreaks(editor, before, after);
    after.ids.forEach((id, place) => {
      if (!isLetter(id)) return;
      for (const key of this.#keys) {
        const value = after.marks[place][key];
        if (!old.has(id) || old.get(id)[key] !== value) this.#act(editor, id, key, value);
      }
    });
    for (const { key, value, letters } of marked) for (const id of letters) this.#act(editor, id, key, value);
    const seen = new Set([...before.ids, ...now]);
    this.#type(after, after.ids.filter((id) => isLetter(id) && !old.has(id)), seen);
    // What others put into a stretch meanwhile may come to have its mark.
    for (const stretch of marked) this.#stretches.push({ ...stretch, seen });
  }

  /** A text was put in, with all its marks. */
  #type({ ids, marks }, letters, seen) {
    for (const id of letters) this.#typed.add(id);
    const values = marks[ids.indexOf(letters[0])];
    for (const key of letters.length > 0 ? this.#keys : []) this.#stretches.push({ key, value: values[key], letters, seen });
  }

  #countBreaks(editor, before, after) {
    const [less, more] = [before, after].map(({ ids }) => ids.filter((id) => !isLetter(id)).length);
    this.#breaks.typed += Math.max(0, more - less);
    this.#breaks.removed += Math.max(0, less - more);
    editor.breaks = (editor.breaks ?? 0) + Math.max(0, less - more);
    this.#breaks.most = Math.max(this.#breaks.most, editor.breaks);
  }

  /** Replaces what the editor had done itself to the same mark, or had seen of others. */
  #act(editor, id, key, value) {
    const others = (this.#acts.get(id) ?? []).filter((act) => act.key !== key || (act.editor !== editor && act.rev > editor.binding.rev));
    this.#acts.set(id, [...others, { editor, key, value, rev: Infinity }]);
  }

  /** What an editor did is in the store, where it waits for nothing. */
  note(editor) {
    if (editor.binding.waiting > 0) return;
    for (const act of [...this.#acts.values()].flat()) if (act.editor === editor) act.rev = Math.min(act.rev, this.#document.rev);
  }

  /** What others did came into an editor. */
  check(editor, before, after) {
    if (!this.#isExact) return;
    this.#checkCharacters(editor, before, after);
    if (after.isWhole) this.#checkWhole(after);
    this.#checkWaiting(before, after);
    this.#checkSelection(before, after);
  }

  #checkCharacters({ binding, removed }, before, after) {
    const [old, now] = [before, after].map(({ ids }) => ids.filter(isLetter));
    const [olds, nows] = [new Set(old), new Set(now)];
    assert.equal(nows.size, now.length, "a letter is shown twice");
    assert.deepEqual(now.filter((id) => olds.has(id)), old.filter((id) => nows.has(id)), "letters changed places");
    for (const id of old) if (!nows.has(id)) assert(this.#known(id).gone <= binding.rev, "a letter went that nobody had taken away");
    for (const id of now) {
      if (olds.has(id)) continue;
      const { came, gone } = this.#known(id);
      assert(came <= binding.rev && binding.rev < gone, "a letter came that isn't in the document");
      assert(!removed?.has(id), "a letter came back that was taken away here");
    }
  }

  /** The store's character for an id. */
  #known(id) {
    const found = this.#document.characters.find((character) => character === id || character.text === id);
    assert(found !== undefined, "a letter went that the document never had");
    return found;
  }

  /** An editor that waits for nothing shows what the store has. */
  #checkWhole({ ids, marks, there, rev }) {
    assert.deepEqual(ids, there.map((character) => (character.text === "\n" ? character : character.text)), "the text isn't that of its rev");
    ids.forEach((id, place) => {
      if (isLetter(id)) assert.deepEqual(marks[place], valuesOfStored(marksOf(there[place], rev)), "marks aren't those of its rev");
    });
  }

  /** Letters that wait stay where they were typed: what came in beyond a neighbour is beyond them, though that may be gone. */
  #checkWaiting(before, after) {
    const places = new Map(this.#document.characters.map(({ text, came }, place) => [text, { place, came }]));
    const came = after.ids.map((id, index) => ({ id, index })).filter(({ id }) => isLetter(id) && !before.ids.includes(id));
    const known = before.ids.map((id) => (isLetter(id) && places.get(id)?.came <= before.rev ? places.get(id).place : undefined));
    before.ids.forEach((id, at) => {
      const found = after.ids.indexOf(id);
      if (!isLetter(id) || known[at] !== undefined || found < 0) return;
      const first = known.slice(0, at).findLast((place) => place !== undefined) ?? -1;
      const last = known.slice(at).find((place) => place !== undefined) ?? Infinity;
      for (const { id: other, index } of came) {
        const { place } = places.get(other);
        const isRight = (place > first || index < found) && (place < last || index > found);
        assert(isRight, "a letter that waits isn't where it was typed");
      }
    });
  }

  /** A caret stays behind its character. What others put at the ends of a selection comes outside of it. */
  #checkSelection(before, after) {
    if (before.from === before.to) {
      this.#checkPlace(before, after, before.to, "previous", after.to, "the caret");
      assert.equal(after.from, after.to, "the caret became a selection");
    } else {
      this.#checkPlace(before, after, before.from, "next", after.from, "the start of the selection");
      this.#checkPlace(before, after, before.to, "previous", after.to, "the end of the selection");
    }
  }

  /**
   * A place stays with its neighbour. Where that is gone, all that was before it still is, and a caret is behind the nearest
   * one that is left. What came in among those that were selected may be selected or not.
   */
  #checkPlace(before, after, at, side, found, what) {
    const neighbour = before.ids[side === "previous" ? at - 1 : at];
    if (at === 0 && side === "previous") return assert.equal(found, 0, `${what} left the start`);
    if (neighbour === undefined || (!isLetter(neighbour) && !after.isWhole)) return;
    const place = after.ids.indexOf(neighbour);
    if (place >= 0) return assert.equal(found, side === "previous" ? place + 1 : place, `${what} left its neighbour`);
    const olds = new Map(before.ids.map((id, index) => [id, index]));
    const order = (id) => this.#document.characters.indexOf(this.#known(id));
    after.ids.forEach((id, index) => {
      if (id === undefined) return;
      const isBefore = olds.has(id) ? olds.get(id) < at : order(id) < order(neighbour);
      const isFree = !olds.has(id) && before.from < before.to && isBefore === (side === "previous");
      if (!isFree) assert.equal(index < found, isBefore, `${what} isn't where its neighbour was`);
    });
  }

  /** What is left in the end: each letter once that nobody took away, with marks that somebody wished last. */
  finish() {
    const left = this.#document.at(this.#document.rev);
    const letters = left.filter(({ text }) => text !== "\n");
    const found = letters.map(({ text }) => text).filter((id) => this.#isExact || !this.#removed.has(id));
    const wanted = [...this.#typed].filter((id) => !this.#removed.has(id));
    assert.deepEqual(found.sort(), wanted.sort(), "other letters are left than were to be");
    const breaks = left.length - letters.length;
    const { typed, removed, most } = this.#breaks;
    assert(typed - removed <= breaks && breaks <= typed - (this.#isExact ? most : 0), "breaks were lost, or are there twice");
    if (this.#isExact) for (const character of letters) this.#checkMarks(character);
  }

  #checkMarks(character) {
    const values = valuesOfStored(marksOf(character));
    for (const key of this.#keys) {
      const acts = this.#acts.get(character.text).filter((act) => act.key === key);
      const isWished = acts.some(({ value }) => value === values[key]) || this.#isWithin(character, key, values[key]);
      assert(isWished, `${key} of ${character.text} is ${values[key]}, as nobody wished`);
    }
  }

  /** Whether a stretch was marked so around a character that wasn't seen there. */
  #isWithin(character, key, value) {
    const order = (id) => this.#document.characters.findIndex(({ text }) => text === id);
    const here = order(character.text);
    return this.#stretches.some((stretch) => {
      if (stretch.key !== key || stretch.value !== value || stretch.seen.has(character.text)) return false;
      return order(stretch.letters[0]) < here && here < order(stretch.letters.at(-1));
    });
  }
}
