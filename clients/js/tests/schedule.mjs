// Random histories of two or three editors over a store: local steps, remote ones, delays, and cuts of the connection.

import assert from "node:assert/strict";

import { Store } from "./fake.mjs";
import { cut, editorsOver, goOn, isEnded, numbers } from "./support.mjs";

/** Waits until nothing happens any more: nothing is answered by itself. */
async function calm() {
  for (let left = 4; left > 0; left -= 1) await new Promise(setImmediate);
}

/** A history that goes by a seed. */
class History {
  store = new Store();
  #kind;
  #below;
  #how;
  #letter;
  #letters = 0;
  #editors = [];

  /** `kind` is of editors; `how` says whether connections are `"cut"`, or the file is opened `"anew"`; `letter` writes the letters, by their numbers. */
  constructor(kind, seed, how, letter) {
    this.#kind = kind;
    this.#below = numbers(seed);
    this.#how = how;
    this.#letter = letter;
  }

  /** Has the editors begin. In some histories the session of the first one goes on by itself. */
  async begin() {
    const goesOn = [this.#below(2) === 0, false, false].slice(0, 2 + this.#below(2));
    this.#editors = await editorsOver(goesOn, (options) => this.#kind.open(this.store, options));
    for (const editor of this.#editors) editor.isHeld = editor.transport.held = true;
  }

  /** Somebody has a turn: what happens to him, which gives what he marked if he did something himself. */
  turn() {
    const editor = this.#editors[this.#below(this.#editors.length)];
    return { editor, happen: () => this.#happen(editor) };
  }

  #happen(editor) {
    const draw = this.#below(this.#how === undefined ? 16 : 18);
    if (draw < 5) return this.#act(editor);
    if (draw < 14) editor.transport.pass(this.#below(3) === 0 ? 1 : Infinity);
    else if (draw < 16) editor.binding.pull().catch(isEnded);
    else if (editor.isCut) this.#goOn(editor);
    else this.#cut(editor);
  }

  #act(editor) {
    return this.#kind.act(editor, this.#below, () => this.#letter((this.#letters += 1)));
  }

  /** Cuts an editor off, which goes on at once or in a later turn; or all of them, where the file is opened anew. */
  #cut(editor) {
    const [made, isLate] = [this.#below(3), this.#below(2) === 0];
    const isAnew = this.#how === "anew";
    const those = isAnew ? this.#editors : [editor];
    // A session that goes on by itself, and was answered too little since, would wait by the clock.
    if (those.some(({ goesOn, transport }) => goesOn && transport.answered < 2)) return;
    for (const one of those) {
      cut(one, this.store, made);
      one.isCut = true;
    }
    if (isAnew) this.store.openAnew();
    if (!isLate) for (const one of those) this.#goOn(one);
  }

  #goOn(editor) {
    editor.isCut = false;
    goOn(editor);
  }

  /** All is answered and read: then all editors show the same. */
  async end() {
    for (const editor of this.#editors) if (editor.isCut) this.#goOn(editor);
    for (const { transport } of this.#editors) transport.release();
    // What was under way over a session that was cut ends on its own.
    for (const { binding } of this.#editors) await binding.settled().catch(isEnded);
    for (const { binding } of this.#editors) await binding.settled();
    for (const { binding } of this.#editors) await binding.pull();
    const fresh = await this.#kind.open(this.store);
    const shown = (editor) => JSON.stringify(this.#kind.pictured(editor).characters);
    for (const editor of this.#editors) assert.equal(shown(editor), shown(fresh), "an editor shows another text at the end");
    for (const { document } of [...this.#editors, fresh]) await document.session.close();
  }
}

/**
 * Plays a history of so many turns. At the start of each `watch` is called with the editor; of what it gives, `acted` is
 * called with what was marked, if somebody did something himself, and `calmed` once all is calm, with whether he did.
 */
export async function play(kind, { seed, how, letter, turns }, watching) {
  const history = new History(kind, seed, how, letter);
  await history.begin();
  const { watch, finish } = watching(history.store.document(1));
  let turn = 0;
  try {
    for (; turn < turns; turn += 1) {
      const { editor, happen } = history.turn();
      const { acted, calmed } = watch(editor, turn);
      const marked = happen();
      if (marked !== undefined) acted?.(marked);
      await calm();
      calmed(marked !== undefined);
    }
    await history.end();
    return finish();
  } catch (error) {
    throw new Error(`history ${seed}${how === undefined ? "" : ` (${how})`}, turn ${turn}: ${error.message}`, { cause: error });
  }
}
