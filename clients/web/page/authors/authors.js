/**
 * Who wrote what is on the screen. A place that lasts is named by the character before it, and that by the replica that wrote it:
 * so the daemon is asked for the places of characters that are seen and whose writers aren't known. What is typed here needs no
 * question.
 */

import { Ended, Refused, Stale } from "peritext";

import { Paced } from "../carets/paced.js";
import { OWN, authorsIn, drawAuthors, movedBy } from "./drawn.js";
import { gapsIn } from "./ranges.js";

/** Milliseconds between two questions, and how many places one has: four requests of the daemon's. */
const PAUSE = 250;
const PLACES = 1_024;

/** @typedef {import("./ranges.js").Range} Range */

/** A place that lasts, with the replica that wrote the character before it. */
const ANCHOR = /^[ab]\d+@(.+)$/;

export class Authors {
  #view;
  #text;
  #writers;
  /** What was done in the editor since places were asked for. @type {import("prosemirror-state").Transaction[]} */
  #since = [];
  #paced = new Paced(() => this.#find(), PAUSE);

  /**
   * @param {import("prosemirror-view").EditorView} view one with the plugin of `drawnAuthors`
   * @param {import("../carets/bound_text.js").BoundText} text
   * @param {import("./writers.js").Writers} writers
   */
  constructor(view, text, writers) {
    this.#view = view;
    this.#text = text;
    this.#writers = writers;
    for (const event of ["scroll", "resize"]) addEventListener(event, () => this.look(), { passive: true });
  }

  /** @param {boolean} isOn whether colours are shown */
  show(isOn) {
    this.#draw(isOn ? "on" : "off");
    this.look();
  }

  /** Shows the colours anew, as after somebody was given a name. */
  redraw() {
    if (this.#ranges !== undefined) this.#draw("on");
  }

  /** Who wrote what is known. */
  get seen() {
    return [...new Set((this.#ranges ?? []).map(({ by }) => by))];
  }

  /** @param {import("prosemirror-state").Transaction} transaction one that was made */
  follow(transaction) {
    if (transaction.docChanged) this.#since.push(transaction);
    this.look();
  }

  /** Looks whether somebody is to be asked for. */
  look() {
    if (this.#ranges !== undefined && this.#text.isSettled) this.#paced.due();
  }

  get #ranges() {
    return authorsIn(this.#view.state);
  }

  #draw(told) {
    drawAuthors(told)(this.#view.state, this.#view.dispatch);
  }

  async #find() {
    if (this.#ranges === undefined || !this.#text.isSettled || !this.#view.dom.isConnected) return;
    const characters = this.#unknown();
    const own = this.#writers.isOwnKnown ? undefined : this.#ranges.find(({ by }) => by === OWN);
    if (characters.length === 0 && own === undefined) return;
    this.#since = [];
    try {
      await this.#ask(characters, own);
      this.#paced.due();
    } catch (error) {
      // What others did is here soon. After an end there is another session.
      if (error instanceof Stale) this.#paced.due();
      else if (!(error instanceof Refused || error instanceof Ended)) throw error;
    }
  }

  /**
   * @param {{from: number, to: number}[]} characters
   * @param {Range | undefined} own something that was typed here, if that is to tell which replica this side's is
   */
  async #ask(characters, own) {
    const ends = [...characters, ...(own === undefined ? [] : [own])].map(({ to }) => to);
    const replicas = (await this.#text.anchorsAt(ends)).map((anchor) => ANCHOR.exec(anchor)?.[1] ?? "");
    if (own !== undefined) this.#writers.learnOwn(replicas.pop());
    this.#writers.meet(replicas);
    const found = characters.map(({ from, to }, index) => ({ from, to, by: replicas[index] }));
    this.#draw(this.#since.reduce((ranges, transaction) => movedBy(ranges, transaction, undefined), found));
  }

  /** The characters on the screen whose writers aren't known, as many as are asked for at once. */
  #unknown() {
    const found = [];
    for (const { node, from } of this.#seenParagraphs()) {
      for (const gap of gapsIn(this.#ranges, from, from + node.content.size)) {
        let at = gap.from;
        for (const character of node.textContent.slice(gap.from - from, gap.to - from)) {
          found.push({ from: at, to: (at += character.length) });
          if (found.length === PLACES) return found;
        }
      }
    }
    return found;
  }

  /** The paragraphs on the screen, each with the position of its text. */
  #seenParagraphs() {
    const { doc } = this.#view.state;
    const found = [];
    doc.forEach((node, position) => {
      if (node.content.size > 0) found.push({ node, from: position + 1 });
    });
    const rect = ({ from }) => /** @type {HTMLElement} */ (this.#view.nodeDOM(from - 1)).getBoundingClientRect();
    const first = firstIn(found, (one) => rect(one).bottom > 0);
    const end = firstIn(found, (one) => rect(one).top > innerHeight);
    return found.slice(first, end);
  }
}

/**
 * The index of the first of a list for which something holds, as it does for all after it.
 * @template T
 * @param {T[]} list
 * @param {(one: T) => boolean} holds
 */
function firstIn(list, holds) {
  let [first, end] = [0, list.length];
  while (first < end) {
    const middle = (first + end) >> 1;
    if (holds(list[middle])) end = middle;
    else first = middle + 1;
  }
  return first;
}
