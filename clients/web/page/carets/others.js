/** Others' carets: where the places are in this editor by which they are told. */

import { Ended, Refused, Stale } from "peritext";

import { caretsIn, drawCarets, followed } from "./drawn.js";
import { Paced } from "./paced.js";

/** Milliseconds between two questions where places are. */
const PAUSE = 100;

/** Milliseconds for which a caret isn't looked for after others' typing took it along: it is told where it is meanwhile. */
const QUIET = 250;

/** Milliseconds for which a caret stays where it was, if it is beside a character that isn't here yet. */
const LATE = 1_000;

/**
 * A caret that was told. It was looked for last when `asked` says, at the `rev` of `found` if that was answered; since `lost`
 * it is beside a character that isn't here.
 * @typedef {{told: import("./relay.js").ToldCaret, asked: number, found?: number, lost?: number}} Other
 */

export class OtherCarets {
  #view;
  #text;
  /** @type {Map<number, Other>} */
  #others = new Map();
  /**
   * What was done in the editor since places were asked for.
   * @type {import("prosemirror-state").Transaction[]}
   */
  #since = [];
  #clock;
  #paced = new Paced(() => this.#find(), PAUSE);

  /**
   * @param {import("prosemirror-view").EditorView} view
   * @param {import("./bound_text.js").BoundText} text
   */
  constructor(view, text) {
    this.#view = view;
    this.#text = text;
  }

  /** @param {import("prosemirror-state").Transaction} transaction one that was made */
  follow(transaction) {
    if (transaction.docChanged) this.#since.push(transaction);
  }

  /** @param {Map<number, import("./relay.js").ToldCaret>} told all carets of others */
  become(told) {
    const known = this.#others;
    this.#others = new Map([...told].map(([number, caret]) => [number, withTold(known.get(number), caret)]));
    if ([...known.keys()].some((number) => !told.has(number))) this.#draw(new Map());
    this.look();
  }

  /** Looks for all of them anew, as over another session. */
  lookAgain() {
    for (const other of this.#others.values()) other.found = undefined;
    this.look();
  }

  /** Looks for those that may be elsewhere, now or once it is time. */
  look() {
    const others = [...this.#others.values()];
    if (this.#text.isSettled && others.some((other) => this.#isDue(other))) this.#paced.due();
    const isLater = others.some((other) => !this.#isQuiet(other) || (other.lost !== undefined && !this.#isOver(other)));
    if (isLater) this.#clock ??= setTimeout(() => this.#lookLater(), QUIET);
  }

  #lookLater() {
    this.#clock = undefined;
    if ([...this.#others.values()].some((other) => this.#isOver(other))) this.#draw(new Map());
    this.look();
  }

  /** @param {Other} other */
  #isDue(other) {
    const { found, lost, asked } = other;
    const isNew = found === undefined;
    const mayHaveCome = lost !== undefined && found !== this.#text.rev;
    const isGuessed = this.#takenAt(other) > asked;
    return this.#isQuiet(other) && (isNew || mayHaveCome || isGuessed);
  }

  /** @param {Other} other */
  #isQuiet(other) {
    return Date.now() - this.#takenAt(other) > QUIET;
  }

  /**
   * Whether it is no longer shown: its character isn't here, and nobody types at it.
   * @param {Other} other
   */
  #isOver(other) {
    return other.lost !== undefined && Date.now() - other.lost >= LATE && this.#isQuiet(other);
  }

  /**
   * When what others typed took it along last.
   * @param {Other} other
   */
  #takenAt({ told }) {
    return caretsIn(this.#view.state).find(({ number }) => number === told.number)?.carried ?? 0;
  }

  async #find() {
    const due = this.#text.isSettled ? [...this.#others.values()].filter((other) => this.#isDue(other)) : [];
    if (due.length === 0) return;
    const { rev } = this.#text;
    this.#since = [];
    for (const other of due) Object.assign(other, { found: rev, asked: Date.now() });
    try {
      const positions = await this.#text.positionsOf(due.flatMap(({ told: { head, tail } }) => [head, tail]));
      const found = due.map((other, index) => [other, this.#foundAt(other, positions.slice(2 * index, 2 * index + 2))]);
      this.#draw(new Map(found));
      this.look();
    } catch (error) {
      for (const other of due) other.found = undefined;
      // What others did is here soon. After an end there is another session.
      if (error instanceof Stale) this.#paced.due();
      else if (!(error instanceof Refused || error instanceof Ended)) throw error;
    }
  }

  /**
   * A caret where it was found, after what was done here meanwhile; nothing if the text doesn't have it.
   * @param {Other} other
   * @param {(number | null)[]} positions
   * @returns {import("./drawn.js").DrawnCaret | undefined}
   */
  #foundAt(other, [head, tail]) {
    const isHere = head !== null && tail !== null;
    other.lost = isHere ? undefined : (other.lost ?? Date.now());
    if (!isHere) return undefined;
    const { number, name, colour } = other.told;
    return this.#since.reduce(followed, { number, name, colour, head, tail, carried: 0 });
  }

  /**
   * Draws those that were found, and leaves the others where they are, for a while.
   * @param {Map<Other, import("./drawn.js").DrawnCaret | undefined>} found
   */
  #draw(found) {
    const before = caretsIn(this.#view.state);
    const now = [...this.#others.values()].map((other) => found.get(other) ?? this.#kept(other, before));
    const carets = now.filter((caret) => caret !== undefined);
    if (!areSame(before, carets)) drawCarets(carets)(this.#view.state, this.#view.dispatch);
  }

  /**
   * A caret as it is drawn by now, or nothing if it is to be seen no longer.
   * @param {Other} other
   * @param {import("./drawn.js").DrawnCaret[]} drawn
   */
  #kept(other, drawn) {
    return this.#isOver(other) ? undefined : drawn.find(({ number }) => number === other.told.number);
  }
}

/**
 * What is known of a caret once it is told: it is looked for if it is elsewhere.
 * @param {Other | undefined} other
 * @param {import("./relay.js").ToldCaret} told
 * @returns {Other}
 */
function withTold(other, told) {
  if (other === undefined) return { told, asked: 0 };
  const isThere = other.told.head === told.head && other.told.tail === told.tail;
  return isThere ? other : { ...other, told, found: undefined };
}

/**
 * @param {import("./drawn.js").DrawnCaret[]} some
 * @param {import("./drawn.js").DrawnCaret[]} others
 */
function areSame(some, others) {
  return some.length === others.length && some.every((caret, index) => isSame(caret, others[index]));
}

/**
 * @param {import("./drawn.js").DrawnCaret} one
 * @param {import("./drawn.js").DrawnCaret} other
 */
function isSame(one, other) {
  return one.number === other.number && one.head === other.head && one.tail === other.tail;
}
