/** What the program tells of a document: its text, and the steps that led from one text of it to another. */

import { readAnew } from "../anew.js";
import { Stale } from "../refusals.js";
import { charactersOf } from "./edits.js";
import { fitted } from "./fitting.js";
import { withGiven } from "./made.js";
import { NONE, held } from "./marks.js";

/**
 * @typedef {import("./edits.js").Edit} Edit
 * @typedef {import("./edits.js").Run} Run
 * @typedef {import("./steps.js").Step} Step
 */

/**
 * What leads from a text to the one that the program has at a `rev`. If it isn't told, characters that stayed may count as
 * gone and put in again.
 * @typedef {{steps: readonly Step[], rev: number, isTold: boolean}} Told
 */

export class Teller {
  /**
   * @param {import("../document.js").Document} document
   * @param {(kind: string) => boolean} knows the kinds of marks that an editor shows
   */
  constructor(document, knows) {
    this.document = document;
    this.knows = knows;
  }

  /**
   * The whole text, with its `rev`.
   * @returns {Promise<{runs: Run[], rev: number}>}
   */
  async all() {
    const { spans, rev } = await this.document.readSpans();
    return { runs: this.#runsOf(spans), rev };
  }

  /**
   * What changed since a text that was read over this connection.
   * @param {number} rev
   * @returns {Promise<Told>}
   */
  async since(rev) {
    const told = await this.document.changes(rev);
    return { steps: this.#stepsOf(told.steps), rev: told.rev, isTold: true };
  }

  /**
   * What led on from the text that edits made, with the marks that their characters were given. Nothing if the connection is
   * another one by now.
   * @param {readonly Edit[]} edits
   * @param {number} rev of the text before them
   * @param {number} made of the text that they made
   * @param {PromiseSettledResult<Told>} asked what changed since the text before them, if nobody edited meanwhile
   * @returns {Promise<Told | undefined>}
   */
  async behind(edits, rev, made, asked) {
    try {
      const first = valueOf(asked);
      if (first.rev === made) return { ...first, steps: withGiven(edits, [], first.steps) };
      for (;;) {
        const [all, others] = await Promise.all([this.since(rev), this.since(made)]);
        // Both have to be of one moment.
        if (all.rev === others.rev) return { ...others, steps: withGiven(edits, others.steps, all.steps) };
      }
    } catch (error) {
      if (error instanceof Stale) return undefined;
      throw error;
    }
  }

  /**
   * What leads from a text to the one that the program has, over another connection. The file may have been opened anew, or
   * be another one: then a number of operations may name another text there. So the text is read, and what is told is taken
   * only if it leads to that.
   * @param {readonly Run[]} characters
   * @param {number} rev
   * @param {boolean} isSame whether it is the same file
   * @returns {Promise<Told>}
   */
  async anew(characters, rev, isSame) {
    const { told, spans, rev: now } = await readAnew(this.document, isSame ? rev : undefined);
    return { ...fitted(characters, charactersOf(this.#runsOf(spans)), told && this.#stepsOf(told)), rev: now };
  }

  /**
   * @param {readonly import("../marks.js").Span[]} spans
   * @returns {Run[]}
   */
  #runsOf(spans) {
    return spans.map((span) => ({ text: span.text, marks: held(span, this.knows) }));
  }

  /**
   * @param {readonly import("../changing.js").Step[]} steps
   * @returns {Step[]}
   */
  #stepsOf(steps) {
    return steps.map((step) => {
      if ("delete" in step) return step;
      if ("insert" in step) return { insert: step.insert, attributes: held(step.attributes ?? NONE, this.knows) };
      return step.attributes === undefined ? { retain: step.retain } : { retain: step.retain, attributes: held(step.attributes, this.knows) };
    });
  }
}

/**
 * @template T
 * @param {PromiseSettledResult<T>} result
 * @returns {T}
 */
function valueOf(result) {
  if (result.status === "rejected") throw result.reason;
  return result.value;
}
