/** The marks that a character has, as an object of just the kinds that hold, and how edits change them. */

import { URL_BYTES } from "../limit_table.js";
import { EM, STRONG, comment, link } from "../marks.js";
import { HALF } from "../places.js";

/**
 * @typedef {import("../marks.js").Mark} Mark
 * @typedef {{strong?: true, em?: true, link?: string, comments?: string[]}} Held
 * @typedef {{mark: Mark, isOn: boolean}} Change a mark that is given, or taken away
 */

/** The form in which the program answers the id of a comment. */
const UUID = /^[0-9a-f]{8}(-[0-9a-f]{4}){3}-[0-9a-f]{12}$/;

/** @type {Held} */
export const NONE = Object.freeze({});

/**
 * What holds of the marks of a step or a span.
 * @param {import("../changing.js").Marks} marks
 * @param {(kind: string) => boolean} knows the kinds that are shown; the others are left out
 * @returns {Held}
 */
export function held({ strong, em, link: url, comments }, knows) {
  /** @type {Held} */
  const found = {};
  if (strong && knows("strong")) found.strong = true;
  if (em && knows("em")) found.em = true;
  if (url && knows("link")) found.link = url;
  if (comments?.length && knows("comment")) found.comments = comments;
  return found;
}

/**
 * Whether the program takes what a link leads to.
 * @param {unknown} url
 * @returns {url is string}
 */
export function isHeldUrl(url) {
  if (typeof url !== "string" || HALF.test(url)) return false;
  const { length } = new TextEncoder().encode(url);
  return length >= 1 && length <= URL_BYTES;
}

/**
 * Whether the program answers the id of a comment just so.
 * @param {string} id
 */
export function isHeldId(id) {
  return UUID.test(id);
}

/**
 * @param {Held} one
 * @param {Held} other
 */
export function isSame(one, other) {
  return one === other || changesBetween(one, other).length === 0;
}

/**
 * The marks behind a change.
 * @param {Held} marks
 * @param {Change} change
 * @returns {Held}
 */
export function changed(marks, { mark, isOn }) {
  if (mark.kind === "comment") return withComments(marks, others(marks.comments, mark.id), isOn ? [mark.id] : []);
  const { [mark.kind]: _, ...left } = marks;
  if (!isOn) return left;
  return mark.kind === "link" ? { ...left, link: mark.url } : { ...left, [mark.kind]: true };
}

/**
 * The changes that make some marks into others.
 * @param {Held} from
 * @param {Held} to
 * @returns {Change[]}
 */
export function changesBetween(from, to) {
  /** @type {Change[]} */
  const found = [];
  if (from.strong !== to.strong) found.push({ mark: STRONG, isOn: to.strong === true });
  if (from.em !== to.em) found.push({ mark: EM, isOn: to.em === true });
  if (from.link !== to.link) found.push({ mark: link(to.link), isOn: to.link !== undefined });
  for (const id of missing(from.comments, to.comments)) found.push({ mark: comment(id), isOn: false });
  for (const id of missing(to.comments, from.comments)) found.push({ mark: comment(id), isOn: true });
  return found;
}

/**
 * @param {Held} marks
 * @param {string[]} comments
 * @param {string[]} added
 * @returns {Held}
 */
function withComments({ comments: _, ...left }, comments, added) {
  const all = [...comments, ...added].sort();
  return all.length === 0 ? left : { ...left, comments: all };
}

/**
 * @param {string[] | undefined} comments
 * @param {string} id
 */
function others(comments = [], id) {
  return comments.filter((it) => it !== id);
}

/** @type {string[]} */
const EMPTY = [];

/**
 * The comments of one list that another one doesn't have.
 * @param {string[]} comments
 * @param {string[]} there
 */
function missing(comments = EMPTY, there = EMPTY) {
  return comments === there ? EMPTY : comments.filter((id) => !there.includes(id));
}
