/** What a change of Quill's contents amounts to as edits of the program. */

import { deletesOf, insertsOf } from "../editing/edits.js";
import { runsBetween, stringOf } from "../editing/texts.js";
import { lengthOf } from "../places.js";
import { changesBy, heldBy } from "./formats.js";
import { widthOf, wellFormed } from "./ops.js";

/**
 * @typedef {import("../editing/edits.js").Edit} Edit
 * @typedef {import("../editing/edits.js").Marking} Marking
 * @typedef {import("../editing/edits.js").Run} Run
 * @typedef {import("../editing/marks.js").Change} Change
 * @typedef {import("../editing/texts.js").Text} Text
 * @typedef {import("./formats.js").Attributes} Attributes
 * @typedef {import("./formats.js").Format} Format
 * @typedef {import("./ops.js").Op} Op
 */

/**
 * Characters of the text as it comes to be, and what changes of their marks.
 * @typedef {{from: number, to: number, changes: Change[]}} Stretch
 */

/**
 * The edits of a change of contents, which are a text and the editor's own break at its end.
 * @param {Text} text what was shown before
 * @param {readonly Op[]} ops none of which cuts a character in two
 * @param {readonly Format[]} formats
 * @returns {Edit[]}
 */
export function editsOf(text, ops, formats) {
  const walk = new Walk(text, formats);
  for (const op of withoutEnd(ops, stringOf(text).length)) walk.go(op);
  return walk.end();
}

/** The way through a text by the steps over it. */
class Walk {
  #text;
  #string;
  #formats;
  /** How many units and characters of the text before are passed, and how many characters of what it comes to be. */
  #index = 0;
  #old = 0;
  #now = 0;
  /** @type {Edit[]} */
  #edits = [];
  /** @type {Run[]} those that come at this place */
  #come = [];
  /** @type {Stretch[]} */
  #stretches = [];

  /**
   * @param {Text} text
   * @param {readonly Format[]} formats
   */
  constructor(text, formats) {
    this.#text = text;
    this.#string = stringOf(text);
    this.#formats = formats;
  }

  /** @param {Op} op */
  go(op) {
    if (typeof op.insert === "string") this.#come.push({ text: wellFormed(op.insert), marks: heldBy(op.attributes ?? {}, this.#formats) });
    if (op.insert !== undefined) return;
    this.#putIn();
    const end = this.#index + widthOf(op);
    const count = lengthOf(this.#string.slice(this.#index, end));
    if (op.delete !== undefined) this.#edits.push(...deletesOf(this.#now, count));
    else this.#pass(count, op.attributes);
    this.#index = end;
    this.#old += count;
  }

  /** The edits, where marks change once all is in its place. */
  end() {
    this.#putIn();
    return [...this.#edits, ...markingsOver(this.#stretches)];
  }

  #putIn() {
    this.#edits.push(...insertsOf(this.#now, this.#come));
    this.#now += lengthOf(stringOf(this.#come));
    this.#come = [];
  }

  /**
   * @param {number} count
   * @param {Attributes} [attributes]
   */
  #pass(count, attributes) {
    if (attributes !== undefined) this.#stretches.push(...this.#changed(runsBetween(this.#text, this.#old, this.#old + count), attributes));
    this.#now += count;
  }

  /**
   * What attributes change of the marks of texts that stay here.
   * @param {readonly Run[]} runs
   * @param {Attributes} attributes
   */
  #changed(runs, attributes) {
    let to = this.#now;
    return runs.map(({ text, marks }) => {
      const from = to;
      to += lengthOf(text);
      return { from, to, changes: changesBy(marks, attributes, this.#formats) };
    });
  }
}

/**
 * The same change as one of the text: whatever the contents' last break is by then, it isn't part of that.
 * @param {readonly Op[]} ops
 * @param {number} length of the text before
 */
function withoutEnd(ops, length) {
  /** @type {Op[]} */
  const result = [];
  let left = length;
  let isOver = false;
  for (const op of [...ops, { retain: Infinity }]) {
    const width = widthOf(op);
    if (op.insert !== undefined) result.push(op);
    else if (left > 0) result.push(op.delete === undefined ? { ...op, retain: Math.min(width, left) } : { delete: Math.min(width, left) });
    // The break that was the last one counts as one that comes, if it stays.
    if (width > left && !isOver) {
      if (op.delete === undefined) result.push({ insert: "\n" });
      isOver = true;
    }
    left = Math.max(left - width, 0);
  }
  return withoutLast(result);
}

/**
 * The steps, but for the last character that they leave.
 * @param {Op[]} ops
 */
function withoutLast(ops) {
  let at = ops.length - 1;
  while (ops[at].delete !== undefined || ops[at].insert === "") at -= 1;
  const { insert, retain, attributes } = ops[at];
  /** @type {Op[]} */
  const parts = typeof insert === "string" ? [{ insert: insert.slice(0, -1), attributes }] : [{ retain: Number(retain) - 1, attributes }, { delete: 1 }];
  return [...ops.slice(0, at), ...parts, ...ops.slice(at + 1)];
}

/**
 * The edits of stretches, one for those that go on with the same change.
 * @param {Stretch[]} stretches in the order of the text
 */
function markingsOver(stretches) {
  /** @type {Marking[]} */
  const found = [];
  /** @type {Map<string, Marking>} */
  const last = new Map();
  for (const { from, to, changes } of stretches) {
    for (const change of changes) {
      const name = JSON.stringify(change);
      const before = last.get(name);
      if (before?.to === from) before.to = to;
      else {
        /** @type {Marking} */
        const marking = { op: "mark", from, to, ...change };
        last.set(name, marking);
        found.push(marking);
      }
    }
  }
  return found;
}
