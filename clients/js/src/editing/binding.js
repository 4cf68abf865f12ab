/**
 * What the bindings of all editors share: what the program has, as far as is known, the edits behind it that wait, and how
 * these are sent. It knows no editor.
 *
 * All that wait go in one line, as far as it takes them, and are made at once: with a token, and with the `rev` that they are
 * made at. With the line goes a question for what changed since: that tells what others did, character by character, and which
 * marks the characters that were put in came to have. No two texts are compared. After a lost answer the file is asked for the
 * line by its token, so that it is made once.
 */

import { answerOnce, hasMade, newToken } from "../again.js";
import { FAILED } from "../refusal_table.js";
import { Ended, Stale } from "../refusals.js";
import { charactersOf } from "./edits.js";
import { fitted } from "./fitting.js";
import { corrections } from "./made.js";
import { behindOthers, fitting, lineOf, pendingOf, reachOf, withEdits } from "./pending.js";
import { isPlain } from "./steps.js";
import { Teller } from "./teller.js";

/**
 * @typedef {import("../document.js").Document} Document
 * @typedef {import("./edits.js").Edit} Edit
 * @typedef {import("./edits.js").Run} Run
 * @typedef {import("./pending.js").Pending} Pending
 * @typedef {import("./steps.js").Step} Step
 * @typedef {import("./teller.js").Told} Told
 */

/**
 * How a binding keeps texts. A text that is kept never changes.
 * @template T
 * @typedef {object} Texts
 * @property {(text: T) => readonly Run[]} runsOf
 * @property {(text: T, from: number, to: number) => readonly Run[]} runsBetween what stands between two places
 * @property {(text: T, steps: readonly Step[]) => T} behindSteps
 * @property {(text: T, pending: readonly Pending[]) => T} behindEdits
 */

/**
 * A text that the program has or had, with the number of its operations.
 * @template T
 * @typedef {{base: T, rev: number}} Based
 */

/**
 * What the program has, as far as is known, and the local edits behind it that it doesn't have yet.
 * @template T
 * @typedef {Based<T> & {pending: readonly Pending[]}} Known
 */

/**
 * What a binding may be given.
 * @typedef {{onError?: (error: Error) => void}} Options
 */

/**
 * A binding of one editor says what is `known` and takes what is to `tell`, calls `begin` once something waits, and keeps the
 * rest to itself.
 * @template T
 */
export class Binding {
  #texts;
  #teller;
  #onError;
  /** @type {Promise<void> | undefined} */
  #work;
  #pulls = false;
  /**
   * Where it goes on, and whether that is the same file.
   * @type {{document: Document, retry: boolean} | undefined}
   */
  #next;
  /** How many of the first pending edits are in the line that is on its way, or was sent last. */
  #sent = 0;
  /** Whether they may be made already, though nothing was answered. */
  #unsure = false;
  /**
   * The fields of a line that was answered: the same file has it.
   * @type {Record<string, unknown> | undefined}
   */
  #made;

  /**
   * @param {Texts<T>} texts
   * @param {Teller} teller
   * @param {Options} options
   */
  constructor(texts, teller, { onError = () => {} } = {}) {
    this.#texts = texts;
    this.#teller = teller;
    this.#onError = onError;
  }

  /**
   * What is known, with all that was typed up to now; nothing if the editor isn't there yet, or any more.
   * @protected
   * @returns {Known<T> | undefined}
   */
  known() {
    return undefined;
  }

  /**
   * Keeps what is known now, and shows what others did.
   * @protected
   * @param {Known<T>} _known
   * @param {readonly Step[]} _steps over what the editor shows
   */
  tell(_known, _steps) {}

  /** How many edits aren't answered yet. */
  get waiting() {
    return this.known()?.pending.length ?? 0;
  }

  /** How many operations the document had when it was last read, or without an editor -1. */
  get rev() {
    return this.known()?.rev ?? -1;
  }

  /**
   * Goes on over another session, where the first one has ended: what was typed meanwhile is sent there. An edit that
   * wasn't answered is asked for first, by its token, and isn't made twice.
   * @param {Document} document the same one
   * @param {{retry?: boolean}} options `retry`: false if it is of another file, a peer's: that knows no token of this one,
   *   so an edit that wasn't answered is sent there as a new one. If an edit was answered, the binding sees by itself
   *   whether it is the same file
   */
  async resume(document, { retry = true } = {}) {
    this.#next = { document, retry };
    // What is under way over the first session fails on its own.
    await this.#work?.catch(() => {});
    return this.settled();
  }

  /** Reads what others did, and sends what is left to send. */
  pull() {
    this.#pulls = true;
    return this.settled();
  }

  /**
   * Reads what others did whenever a watch tells of it, until that ends or the editor is gone. Throws what `settled` throws.
   * @param {AsyncIterable<number>} watch
   */
  async follow(watch) {
    for await (const rev of watch) {
      // What was done here is read with its answer.
      await this.settled();
      if (this.#isGone) break;
      if (rev > this.rev) await this.pull();
    }
  }

  /** Waits until every local step is answered. Throws the refusal, other than a stale one, that ended the sending. */
  settled() {
    this.#work ??= this.#send();
    return this.#work;
  }

  /**
   * Begins to send what is pending, unless that is under way.
   * @protected
   */
  begin() {
    if (this.#work === undefined && this.waiting > 0) this.settled().catch(this.#onError);
  }

  /**
   * What is known behind local edits.
   * @protected
   * @param {Known<T>} known
   * @param {readonly Edit[]} edits
   * @returns {Known<T>}
   */
  followed(known, edits) {
    return edits.length === 0 ? known : { ...known, pending: withEdits(known.pending, edits, Math.max(this.#sent, 1)) };
  }

  /** Whether the editor is gone. */
  get #isGone() {
    return this.known() === undefined;
  }

  /** What is known of an editor that is there. */
  #here() {
    return /** @type {Known<T>} */ (this.known());
  }

  async #send() {
    // The caller keeps this promise first, so that it is gone again once this ends.
    await undefined;
    try {
      while (!this.#isGone) {
        if (this.#next !== undefined) await this.#goOver(this.#next);
        else if (this.waiting > 0) await this.#sendFirst();
        else if (this.#pulls) await this.#pull();
        else break;
      }
    } finally {
      this.#work = undefined;
    }
  }

  /** @param {{document: Document, retry: boolean}} next */
  async #goOver(next) {
    const { document, retry } = next;
    const lost = this.#unsure ? this.#fieldsOfLine(document) : undefined;
    const isSame = retry && (await this.#isFileOf(document));
    const answer = isSame && lost !== undefined ? await answerOnce(document.session, lost) : undefined;
    if (this.#isGone) return;
    const reached = answer === undefined ? this.#here() : { base: this.#behindLine(), rev: answer.rev };
    const teller = new Teller(document, this.#teller.knows);
    const told = await this.#readAnew(teller, reached, isSame);
    if (this.#isGone || this.#next !== next) return;
    this.#next = undefined;
    this.#teller = teller;
    this.#unsure = false;
    if (!isSame) this.#forget();
    if (answer === undefined) return this.#take(told);
    this.#made = lost;
    this.#confirm(reached.base, told);
  }

  /**
   * Whether a document is of the file that has been edited: it has what was answered. Before any answer it is taken for it.
   * @param {Document} document
   */
  async #isFileOf({ session }) {
    return this.#made === undefined || hasMade(session, this.#made);
  }

  /** Another file knows no token of this one, and is sent none: there the first pending edit is a new one. */
  #forget() {
    this.#made = undefined;
    const known = this.#here();
    const [first, ...rest] = known.pending;
    if (first !== undefined) this.tell({ ...known, pending: [{ ...first, token: newToken() }, ...rest] }, []);
  }

  /** The pending edits of the line. */
  #line() {
    return this.#here().pending.slice(0, this.#sent);
  }

  /**
   * The fields of the line.
   * @param {Document} document
   * @returns {Record<string, unknown>}
   */
  #fieldsOfLine({ number }) {
    return { doc: number, ...lineOf(this.#line()) };
  }

  /** The text behind the line. */
  #behindLine() {
    return this.#texts.behindEdits(this.#here().base, this.#line());
  }

  async #pull() {
    this.#pulls = false;
    const known = this.#here();
    this.#take(await this.#toldOr(known, this.#teller.since(known.rev)));
  }

  /** Sends the first pending edits, and asks what changed since the text that they are for. */
  async #sendFirst() {
    const known = this.#here();
    const { document } = this.#teller;
    const { parted } = document.session;
    // What may be made goes again as it is.
    if (!this.#unsure) this.#sent = fitting(known.pending);
    const fields = this.#fieldsOfLine(document);
    const [edit, asked] = await Promise.allSettled([document.edit(fields, known.rev), this.#teller.since(known.rev)]);
    if (this.#isGone) return;
    if (edit.status === "fulfilled") return this.#finish(fields, edit.value, asked);
    // One that couldn't be sent leaves open what became of the one before.
    if (!(edit.reason instanceof Ended)) this.#unsure = edit.reason.number === FAILED;
    else if (edit.reason.wasSent) this.#unsure = true;
    if (!(edit.reason instanceof Stale)) throw edit.reason;
    const told = await this.#toldOr(known, asked.status === "fulfilled" ? asked.value : Promise.reject(asked.reason));
    if (parted === document.session.parted) this.#take(told);
    else await this.#takeUnlessMade(fields, told);
  }

  /**
   * The line was refused over another connection than the one over which it was sent first. Over that one it may be read
   * later, and be made then at its `rev`: so it goes again as it is while nothing has changed, and what is told may have it.
   * @param {Record<string, unknown>} fields its own
   * @param {Told} told what changed since the text before it
   */
  async #takeUnlessMade(fields, told) {
    const known = this.#here();
    const answer = await answerOnce(this.#teller.document.session, fields);
    if (answer === undefined) {
      this.#unsure = told.rev === known.rev && told.steps.every(isPlain);
      if (!this.#unsure) this.#take(told);
      return;
    }
    const all = answer.rev <= told.rev ? told : await this.#readAnew(this.#teller, known, true);
    if (this.#isGone) return;
    this.#made = fields;
    const base = this.#texts.behindSteps(known.base, all.steps);
    const { steps } = fitted(this.#charactersOf(this.#behindLine()), this.#charactersOf(base));
    this.#goOn(base, { steps, rev: all.rev, isTold: true }, [], this.#here().pending.slice(this.#sent));
  }

  /**
   * The line is made. Until it is known which marks its characters have, it may be asked for again.
   * @param {Record<string, unknown>} fields its own
   * @param {number} rev
   * @param {PromiseSettledResult<Told>} asked what changed since the text before it
   */
  async #finish(fields, rev, asked) {
    this.#made = fields;
    this.#unsure = true;
    const known = this.#here();
    const base = this.#behindLine();
    const edits = this.#line().map(({ edit }) => edit);
    const told = await this.#teller.behind(edits, known.rev, rev, asked);
    const sure = told ?? (await this.#readAnew(this.#teller, { base, rev }, true));
    this.#unsure = false;
    this.#confirm(base, sure);
  }

  /**
   * What is told, or what leads from a text to what is read anew if that is stale.
   * @param {Based<T>} reached
   * @param {Told | Promise<Told>} telling
   * @returns {Promise<Told>}
   */
  async #toldOr(reached, telling) {
    try {
      return await telling;
    } catch (error) {
      if (error instanceof Stale) return this.#readAnew(this.#teller, reached, true);
      throw error;
    }
  }

  /**
   * What leads from a text to what is read anew.
   * @param {Teller} teller
   * @param {Based<T>} reached
   * @param {boolean} isSame whether it is the same file
   */
  #readAnew(teller, { base, rev }, isSame) {
    return teller.anew(this.#charactersOf(base), rev, isSame);
  }

  /** @param {T} text */
  #charactersOf(text) {
    return charactersOf(this.#texts.runsOf(text));
  }

  /**
   * The line is made, and what others did behind it is taken over. What the program shows is the wish of others; but
   * characters that were just put in get the editor's marks, if the program gave them those of their surroundings.
   * @param {T} made the text behind the line
   * @param {Told} told
   */
  #confirm(made, told) {
    if (this.#isGone) return;
    const line = this.#line().map(({ edit }) => edit);
    const rest = this.#here().pending.slice(this.#sent);
    const { edits, steps } = corrections(line, (from, to) => this.#texts.runsBetween(made, from, to), told.steps);
    this.#goOn(this.#texts.behindSteps(made, told.steps), { ...told, steps }, pendingOf(edits), rest);
  }

  /**
   * Takes over what others did.
   * @param {Told} told
   */
  #take(told) {
    if (this.#isGone) return;
    const { base, pending } = this.#here();
    this.#goOn(this.#texts.behindSteps(base, told.steps), told, [], pending);
  }

  /**
   * @param {T} base what the program has now
   * @param {Told} told what led there
   * @param {readonly Pending[]} first what is to be sent before anything else
   * @param {readonly Pending[]} pending behind the text before
   */
  #goOn(base, { steps, rev, isTold }, first, pending) {
    this.#sent = 0;
    const moved = behindOthers(pending, steps);
    this.tell({ base, rev, pending: [...first, ...moved.pending] }, moved.steps);
    if (!isTold && reachOf(moved.pending) < reachOf(pending)) this.#onError(new Error(LOST));
  }
}

const LOST = "the file was opened anew and edited meanwhile: some of what was removed or marked here may be there, or unmarked, again";
