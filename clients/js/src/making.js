/** How a document makes what takes several requests. */

import { throwIfAborted } from "./aborting.js";
import { BEYOND, byNumbers, linesOf, needsNumber, operationsOf, piecesOf } from "./action.js";
import { NEVER, needDigest, newToken, tokenAfter } from "./again.js";
import { lines, naming, parts } from "./calls.js";
import { Stale } from "./refusals.js";
import { lastingOf } from "./rules.js";

/** How often places of several requests are asked for, until all are answered at one `rev`. */
const ROUNDS = 8;

/**
 * @typedef {import("./action.js").PlacedEdit} PlacedEdit
 * @typedef {import("./again.js").Request} Request
 * @typedef {import("./calls.js").Part} Part
 * @typedef {import("./document.js").AskOptions} AskOptions
 * @typedef {import("./document.js").Document} Document
 * @typedef {import("./document.js").EditOptions} EditOptions
 * @typedef {import("./wire.js").Answer} Answer
 */

/**
 * Refuses the number of another session. After a crash, or at a peer, it may name another text, and would be taken for
 * this one.
 * @param {Document} document
 * @param {number} [rev]
 * @param {AbortSignal} [signal]
 */
export function needKnown({ session, number }, rev, signal) {
  throwIfAborted(signal);
  if (rev !== undefined && !session.knowsRev(number)) throw new Stale(6, "stale");
}

/**
 * The answers to several requests, which are sent at once: at this `rev`, or else at any one.
 * @param {Document} document
 * @param {Request[]} requests
 * @param {AskOptions} given
 * @returns {Promise<Answer[]>}
 */
export async function askAll(document, requests, { rev, signal }) {
  const { session, number } = document;
  for (let left = rev === undefined ? ROUNDS : 1; left > 0; left -= 1) {
    const { parted } = session;
    needKnown(document, rev, signal);
    const asked = requests.map((request) => session.send({ doc: number, ...request }, { signal }));
    const answers = await Promise.all(asked);
    const wanted = rev ?? answers[0]?.rev;
    // After a lost connection the same number can name another text.
    if (parted === session.parted && answers.every((answer) => answer.rev === wanted)) return answers;
  }
  throw new Stale(6, "stale");
}

/**
 * Makes edits at once, or line by line, and gives the last answer.
 * @param {Document} document
 * @param {readonly PlacedEdit[]} edits
 * @param {boolean} parted
 * @param {EditOptions} given
 */
export async function make(document, edits, parted, given) {
  const names = [...new Set(edits.flatMap((edit) => lastingOf(edit).map(([, name]) => name)))];
  if (names.length === 0) return editAll(document, lines(linesOf(piecesOf(edits), parted)), given);
  const all = [...linesOf(piecesOf(edits), parted)];
  if (all.length === 1 && !all[0].some(({ edit }) => needsNumber(edit))) return editAll(document, lines(all), given);
  // What doesn't fit one line and may not be parted is refused before anything is asked.
  const { length } = [...linesOf(byNumbers(edits, new Map(names.map((name) => [name, 0]))), parted)];
  if (length > 1 && given.token !== undefined) needDigest();
  return editThere(document, edits, names, parted, given);
}

/**
 * Makes edits at places that last by numbers, in just the text in which these were asked for. If that has moved on, it asks
 * again.
 * @param {Document} document
 * @param {readonly PlacedEdit[]} edits
 * @param {string[]} names
 * @param {boolean} parted
 * @param {EditOptions} given
 */
async function editThere(document, edits, names, parted, { rev, token, signal }) {
  // A line whose answer is lost may be made later on. So it has one token, however often it is sent.
  const once = token ?? newToken();
  const before = document.session.parted;
  needKnown(document, rev, signal);
  /**
   * The lines of each round, by the `rev` that they are made for.
   * @type {Map<number, Generator<Part, void>>}
   */
  const rounds = new Map();
  for (let left = rev === undefined ? ROUNDS : 1; ; left -= 1) {
    const { made, read } = await linesThere(document, edits, names, parted, { signal });
    const first = /** @type {Part} */ (made.next().value);
    // In another text than the one that was named they are other numbers: there it is answered only if it was made before.
    const isNamed = rev === undefined || (rev === read && before === document.session.parted);
    if (isNamed) rounds.set(read, made);
    const given = { rev: isNamed ? read : NEVER, token: once, signal };
    const last = await document.edit(first.fields, given).catch(naming(first)).catch((error) => {
      if (!(error instanceof Stale) || left === 1) throw error;
    });
    if (last === undefined) continue;
    // It may be known: from a line of an earlier round that was read late, or from another call, which had other places.
    const own = rounds.get(last - operationsOf(/** @type {any} */ (first.fields.edits)));
    return own === undefined ? editKnown(document, made, last, { token, signal }) : editRest(document, own, last, { token, signal });
  }
}

/**
 * Edits by numbers, in the text in which their places are asked for, and its `rev`.
 * @param {Document} document
 * @param {readonly PlacedEdit[]} edits
 * @param {string[]} names
 * @param {boolean} parted
 * @param {AskOptions} given
 */
async function linesThere(document, edits, names, parted, given) {
  const answers = await askAll(document, parts(names).map((part) => ({ op: "places", anchors: part })), given);
  const places = answers.flatMap((answer) => answer.places);
  const numbers = new Map(names.map((name, at) => [name, places[at] ?? BEYOND]));
  return { made: lines(linesOf(byNumbers(edits, numbers), parted)), read: answers[0].rev };
}

/**
 * Makes parts of a call one after the other, and gives the last answer.
 * @param {Document} document
 * @param {Generator<Part, void>} parts
 * @param {EditOptions} given
 * @returns {Promise<number>}
 */
export async function editAll(document, parts, { rev, token, signal }) {
  const first = /** @type {Part} */ (parts.next().value);
  const next = parts.next();
  if (!next.done && token !== undefined) needDigest();
  // This one is sent at once, in its order among other calls.
  const last = await document.edit(first.fields, { rev, token, signal }).catch(naming(first));
  return next.done ? last : editRest(document, after(next.value, parts), last, { token, signal });
}

/**
 * Makes the parts that are left, each after the one before it was answered.
 * @param {Document} document
 * @param {Iterable<Part>} parts
 * @param {number} before what the one before them was answered
 * @param {EditOptions} given
 */
async function editRest(document, parts, before, { token, signal }) {
  let last = before;
  for (const part of parts) {
    const given = { rev: last, token: token && (await tokenAfter(token, String(part.made))), signal };
    last = await editNext(document, part.fields, given).catch(naming(part));
  }
  return last;
}

/**
 * Asks for the parts that are left, which are answered only if they were made before. Without a token of the caller's nobody
 * knows them.
 * @param {Document} document
 * @param {Iterable<Part>} parts
 * @param {number} before what the one before them was answered
 * @param {EditOptions} given
 */
async function editKnown(document, parts, before, { token, signal }) {
  let last = before;
  for (const part of parts) {
    if (token === undefined) throw new Stale(6, "stale");
    const given = { rev: NEVER, token: await tokenAfter(token, String(part.made)), signal };
    last = await document.edit(part.fields, given).catch(naming(part));
  }
  return last;
}

/**
 * Makes an edit after one that was answered with this `rev`. If it is `Stale` for a lost connection alone, it is sent anew.
 * @param {Document} document
 * @param {Request} fields
 * @param {EditOptions} given
 * @returns {Promise<number>}
 */
async function editNext(document, fields, given) {
  for (;;) {
    try {
      return await document.edit(fields, given);
    } catch (error) {
      if (!(error instanceof Stale) || (await document.rev(given)) !== given.rev) throw error;
    }
  }
}

/**
 * One more before others.
 * @template T
 * @param {T} first
 * @param {Iterable<T>} others
 */
function* after(first, others) {
  yield first;
  yield* others;
}
