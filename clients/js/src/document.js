/** A document of a session. */

import { givenOf } from "./aborting.js";
import { cut, needsNumber } from "./action.js";
import { parts, stretches } from "./calls.js";
import { versionsOf } from "./counting.js";
import { findAll } from "./finding.js";
import { askAll, editAll, make, needKnown } from "./making.js";
import { keyOf } from "./marks.js";
import { Reading } from "./reading.js";
import { Stale } from "./refusals.js";
import { LONGEST, isLasting, isWhole } from "./rules.js";

/**
 * @typedef {import("./aborting.js").Abortable} Abortable
 * @typedef {import("./action.js").Lasting} Lasting
 * @typedef {import("./action.js").Place} Place
 * @typedef {import("./action.js").PlacedEdit} PlacedEdit
 * @typedef {import("./changing.js").Changes} Changes
 * @typedef {import("./counting.js").Version} Version
 * @typedef {import("./marks.js").Mark} Mark
 * @typedef {import("./marks.js").Span} Span
 */

/**
 * The neighbour that a place stays with: the character before it, so that what is typed there comes after it, or the next
 * one.
 * @typedef {"previous" | "next"} Side
 */

/**
 * What an edit may be given: the `rev` of the text that it is made for, a `token` under which it is made once, and a
 * `signal`. They are its last argument, also in the place of `rev` or `token`.
 * @typedef {Abortable & {rev?: number, token?: string}} EditOptions
 */

/**
 * An action's may let it go as several lines.
 * @typedef {EditOptions & {parted?: boolean}} ActionOptions
 */

/**
 * A question's: the `rev` of a text that was read, so that the answer is of just this text, or `Stale`.
 * @typedef {Abortable & {rev?: number}} AskOptions
 * @typedef {AskOptions & {side?: Side}} AnchorOptions
 */

/**
 * That of what is shown: after how many of the document's operations, if it isn't the one of now.
 * @typedef {Abortable & {atRev?: number}} PastOptions
 */

/**
 * A search's: the place from which on it looks.
 * @typedef {Abortable & {from?: number}} FindOptions
 */

/**
 * The forms of a page.
 * @typedef {"text" | "markdown" | "html"} Form
 */

/**
 * A page's: whether it has breaks of the line in place of paragraphs.
 * @typedef {Abortable & {breaks?: boolean}} ExportOptions
 */

/**
 * A document, by its number. Places are counted in characters (Unicode scalar values), from 0; `read` gives a text with
 * edits that are counted as JavaScript's strings are. An edit may name the `rev` that it was made for, which this session
 * has to have read.
 *
 * In place of a number an edit may be given the name of a place that lasts, as `anchor` tells it: then it is made where that
 * is by then, whatever others did meanwhile, and needs no `rev`. But 257 characters or more just after a character can be
 * `Stale` beside others who type.
 *
 * Each edit answers the document's new `rev` once it is settled on the disk: it then outlives a power cut.
 *
 * An edit is of at most 256 characters. An `insert` of more is made at once too, as far as one line takes it, which are 64
 * KiB. A longer one goes as several lines, each of which is answered before the next one is sent, and a `delete` of more
 * than 256 characters as several edits. If anybody edits the document in between, the next one is `Stale`, and those before
 * it are made. The tokens of all but the first follow from the one that is given. At a place that lasts some of these are made
 * by numbers, in just the text in which the place was asked for: where it takes several lines, and where a long text comes just
 * after a character. If others edit meanwhile it is asked for again, up to eight times, and then `Stale`.
 *
 * Calls are made in their order. A long text just after a character, and a call of several lines, aren't, unless they are
 * awaited before the next call.
 *
 * A call whose `signal` is aborted rejects with the signal's reason. What was sent by then may be made, and nothing more of
 * the call is sent; an edit with a token of the caller's may be sent again.
 */
export class Document {
  /**
   * @param {import("./session.js").Session} session
   * @param {number} number
   */
  constructor(session, number) {
    this.session = session;
    this.number = number;
  }

  /**
   * Puts characters before the one at a place, or at the end.
   * @param {Place} at
   * @param {string} text
   * @param {number | EditOptions} [rev]
   * @param {string | EditOptions} [token]
   * @param {EditOptions} [options]
   */
  insert(at, text, rev, token, options) {
    const given = givenOf({ rev, token }, options);
    /** @type {PlacedEdit} */
    const edit = { op: "insert", at, text };
    const [, ...others] = cut(edit);
    return others.length > 0 || needsNumber(edit) ? make(this, [edit], true, given) : this.edit(edit, given);
  }

  /**
   * Takes characters away from a place on.
   * @param {Place} at
   * @param {number} count
   * @param {number | EditOptions} [rev]
   * @param {string | EditOptions} [token]
   * @param {EditOptions} [options]
   */
  delete(at, count, rev, token, options) {
    const given = givenOf({ rev, token }, options);
    if (isLasting(at) && isWhole(count, LONGEST + 1)) return make(this, [{ op: "delete", at, count }], true, given);
    return editAll(this, stretches(at, count), given);
  }

  /**
   * Marks the characters from a place up to another, that one not included.
   * @param {Place} from
   * @param {Place} to
   * @param {Mark} mark
   * @param {number | EditOptions} [rev]
   * @param {string | EditOptions} [token]
   * @param {EditOptions} [options]
   */
  mark(from, to, mark, rev, token, options) {
    return this.edit({ op: "mark", from, to, ...mark }, rev, token, options);
  }

  /**
   * Takes a mark away from the characters from a place up to another, that one not included.
   * @param {Place} from
   * @param {Place} to
   * @param {Mark} mark
   * @param {number | EditOptions} [rev]
   * @param {string | EditOptions} [token]
   * @param {EditOptions} [options]
   */
  unmark(from, to, mark, rev, token, options) {
    return this.edit({ op: "unmark", from, to, ...keyOf(mark) }, rev, token, options);
  }

  /**
   * Makes edits at once: all of them or none, and nothing comes between them. Each is at the places that those before it
   * leave: `[{ op: "delete", at: 4, count: 3 }, { op: "insert", at: 4, text: "TWO" }, { op: "mark", from: 4, to: 7, ...STRONG }]`.
   *
   * One line takes 1,024 edits of at most 256 characters (a longer one is several of them), and 65,536 bytes. More is a
   * `RangeError`, and nothing is sent; with `parted` it goes as several lines, each of them all or nothing, as a long
   * `insert` does.
   * @param {readonly PlacedEdit[]} edits
   * @param {number | ActionOptions} [rev]
   * @param {string | ActionOptions} [token]
   * @param {ActionOptions} [options]
   */
  action(edits, rev, token, options) {
    const { parted = false, ...given } = givenOf({ rev, token }, options);
    // What is no list of edits is refused as it is.
    if (!Array.isArray(edits) || edits.length === 0) return this.edit({ op: "edits", edits }, given);
    return make(this, edits, parted, given);
  }

  /**
   * Sends the fields of an edit.
   * @param {Record<string, unknown>} fields
   * @param {number | EditOptions} [rev]
   * @param {string | EditOptions} [token]
   * @param {EditOptions} [options]
   * @returns {Promise<number>}
   */
  async edit(fields, rev, token, options) {
    const { signal, ...given } = givenOf({ rev, token }, options);
    needKnown(this, given.rev, signal);
    const answer = await this.session.send({ doc: this.number, token: given.token, ...fields, rev: given.rev }, { signal });
    return answer.rev;
  }

  /**
   * The text; with `atRev` as it was after the document's first so many operations. It is `Stale` if the document has fewer. It
   * costs what opening so much of the document does.
   * @param {PastOptions} [options]
   */
  async text(options) {
    const { text } = await this.session.send({ op: "text", doc: this.number, at_rev: options?.atRev }, options);
    return text;
  }

  /**
   * The text with its `rev`, and edits of just this text.
   * @param {Abortable} [options]
   */
  async read(options) {
    const { parted } = this.session;
    const { text, rev } = await this.session.send({ op: "text", doc: this.number }, options);
    return new Reading(this, text, rev, parted);
  }

  /**
   * The text in runs of equal marks, with `atRev` as it was then.
   * @param {PastOptions} [options]
   */
  async spans(options) {
    return (await this.readSpans(options)).spans;
  }

  /**
   * The spans with their `rev`.
   * @param {PastOptions} [options]
   * @returns {Promise<{spans: Span[], rev: number}>}
   */
  async readSpans(options) {
    const { spans, rev } = await this.session.send({ op: "spans", doc: this.number, at_rev: options?.atRev }, options);
    return { spans, rev };
  }

  /**
   * The document's operations as versions, the first one first: each is of one replica, and of at most `every` operations. The
   * `rev` of one is what `text` and `spans` take as `atRev`. A document without operations has none. An earlier program refuses
   * it (3).
   * @param {number} every
   * @param {Abortable} [options]
   * @returns {Promise<Version[]>}
   */
  async versions(every, options) {
    return versionsOf(await this.session.send({ op: "versions", doc: this.number, every }, options));
  }

  /**
   * The text as a page, with its marks: `html`, `markdown`, or `text` without them. Each line of it is a paragraph, an empty
   * one too, or a break of the line where `breaks` is `true`.
   * @param {Form} form
   * @param {ExportOptions} [options]
   */
  async export(form, options) {
    const breaks = options?.breaks;
    // An earlier program knows no `breaks`: it is sent only if it says something.
    const fields = { op: "export", doc: this.number, to: form, breaks: breaks === false ? undefined : breaks };
    return (await this.session.send(fields, options)).text;
  }

  /**
   * All places from one on (0, unless it is given) at which a text of 1 to 256 characters stands, overlapping ones too, and the
   * `rev` of the text in which it was looked for. They count characters (Unicode scalar values). More than 1,024 go as several
   * requests: unless all of them are answered at one `rev`, they are sent anew, and are `Stale` after eight times.
   * @param {string} text
   * @param {number | FindOptions} [from]
   * @param {FindOptions} [options]
   */
  find(text, from, options) {
    return findAll(this, text, givenOf({ from }, options));
  }

  /**
   * What changed since a `rev`, for whoever has the text of then: steps that make the text of now of it, from its start on,
   * and the `rev` of now. They count characters (Unicode scalar values). A character that stayed is the one that it was,
   * whatever equal ones stand beside it. From 0 on there is an `insert` for each span. `applied` makes the spans of now of
   * those of then.
   *
   * It is `Stale` if the document doesn't have so many operations, and if they are too old to be told: from before the file
   * was opened. The `rev` of another session, or of the connection before, could name another text: so it is `Stale` too,
   * and isn't asked for, before this session was told one of this document over its connection. Then go on from 0.
   * @param {number} since
   * @param {Abortable} options
   * @returns {Promise<Changes>}
   */
  async changes(since, { signal } = {}) {
    const { parted } = this.session;
    // The text at 0 is empty everywhere. What is no number is refused as it is.
    if (isWhole(since, 1)) needKnown(this, since, signal);
    const { changes, rev } = await this.session.send({ op: "changes", doc: this.number, since }, { signal });
    // It was asked for again over another connection.
    if (since !== 0 && parted !== this.session.parted) throw new Stale(6, "stale");
    return { steps: changes, rev };
  }

  /**
   * A name for a place between characters, which lasts: it stays with its neighbour at every peer and in every session.
   * `place` tells where it is by then. With the `rev` of a text that was read it is of just this text, or `Stale`.
   * @param {number} at
   * @param {Side | AnchorOptions} [side]
   * @param {number | AnchorOptions} [rev]
   * @param {AnchorOptions} [options]
   * @returns {Promise<Lasting>}
   */
  async anchor(at, side, rev, options) {
    const [anchor] = await this.anchors([at], side, rev, options);
    return anchor;
  }

  /**
   * Such names for any number of places. More than 256 go as several requests, which may be answered at different moments:
   * unless all of them are answered at one `rev`, they are sent anew, and are `Stale` after eight times.
   * @param {number[]} at
   * @param {Side | AnchorOptions} [side]
   * @param {number | AnchorOptions} [rev]
   * @param {AnchorOptions} [options]
   * @returns {Promise<Lasting[]>}
   */
  async anchors(at, side, rev, options) {
    const { side: neighbour = "previous", ...given } = givenOf({ side, rev }, options);
    const answers = await askAll(this, parts(at).map((part) => ({ op: "anchors", at: part, side: neighbour })), given);
    return answers.flatMap(({ anchors }) => anchors);
  }

  /**
   * Where a place that lasts is now, or null if it is beside a character that this file doesn't have, or doesn't have yet.
   * Beside one that was removed it stays where that was. With the `rev` of a text that was read it is a place of just this
   * text, or `Stale`.
   * @param {string} anchor
   * @param {number | AskOptions} [rev]
   * @param {AskOptions} [options]
   */
  async place(anchor, rev, options) {
    const [place] = await this.places([anchor], rev, options);
    return place;
  }

  /**
   * Where any number of such places are now. More than 256 go as several requests, as those of `anchors` do.
   * @param {string[]} anchors
   * @param {number | AskOptions} [rev]
   * @param {AskOptions} [options]
   * @returns {Promise<(number | null)[]>}
   */
  async places(anchors, rev, options) {
    const answers = await askAll(this, parts(anchors).map((part) => ({ op: "places", anchors: part })), givenOf({ rev }, options));
    return answers.flatMap(({ places }) => places);
  }

  /**
   * How many operations the document has.
   * @param {Abortable} [options]
   */
  async rev(options) {
    return (await this.read(options)).rev;
  }
}
