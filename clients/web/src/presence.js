/**
 * Who has a caret where: what an editor says of its own is told to all others, and forgotten three seconds after it was said
 * last. An editor says it anew each second. Nothing of it is on a disk, or goes between the daemons.
 */

import { saidCaret } from "./said_caret.js";

/** Milliseconds after which somebody who says nothing is forgotten. */
const SILENCE = 3_000;

/** Milliseconds for which news are gathered, so that a page that says much isn't told on as much. */
const GATHERED = 20;

/** How many carets there are at once, those of pages that have just gone among them. */
const PLACES = 64;

/** How many messages a page may send in a second, and how many bytes may wait for it to read them. */
const MESSAGES = 50;
const UNREAD = 1 << 16;

/**
 * An editor's connection, by the number that it has for the others; how many messages it sent since when, its caret as it was
 * told, and the clock that forgets it.
 * @typedef {{number: number, sent: number, since: number, caret?: string, clock?: NodeJS.Timeout}} Member
 */

export class Presence {
  /** @type {Map<import("ws").WebSocket, Member>} */
  #webs = new Map();
  /**
   * Those that have a caret.
   * @type {Map<number, Member>}
   */
  #members = new Map();
  /** @type {Set<number>} */
  #news = new Set();
  #gathering;
  #last = 0;

  /** @param {import("ws").WebSocket} web an editor's */
  take(web) {
    const member = { number: (this.#last += 1), sent: 0, since: 0 };
    this.#webs.set(web, member);
    web.on("message", (data) => this.#hear(web, member, String(data)));
    web.on("error", () => web.terminate());
    web.on("close", () => this.#leave(web, member));
    this.#tell(web, member, this.#members.keys());
  }

  /**
   * @param {import("ws").WebSocket} web
   * @param {Member} member
   * @param {string} message
   */
  #hear(web, member, message) {
    if (isTooMuch(member, Date.now())) return web.terminate();
    const caret = saidCaret(message);
    if (caret === undefined || !this.#hasPlaceFor(member)) return;
    this.#members.set(member.number, member);
    this.#keep(member);
    const text = JSON.stringify({ number: member.number, ...caret });
    if (text === member.caret) return;
    member.caret = text;
    this.#gather(member);
  }

  /** @param {Member} member */
  #hasPlaceFor({ number }) {
    return this.#members.has(number) || this.#members.size < PLACES;
  }

  /** @param {Member} member */
  #keep(member) {
    clearTimeout(member.clock);
    member.clock = setTimeout(() => this.#forget(member), SILENCE).unref();
  }

  /**
   * Its caret stays for a while: it may be back soon, as where its page is loaded anew.
   * @param {import("ws").WebSocket} web
   * @param {Member} member
   */
  #leave(web, member) {
    this.#webs.delete(web);
    if (this.#members.has(member.number)) this.#keep(member);
  }

  /** @param {Member} member */
  #forget(member) {
    this.#members.delete(member.number);
    member.caret = undefined;
    this.#gather(member);
  }

  /** @param {Member} member */
  #gather({ number }) {
    this.#news.add(number);
    this.#gathering ??= setTimeout(() => this.#tellAll(), GATHERED).unref();
  }

  #tellAll() {
    this.#gathering = undefined;
    for (const [web, member] of this.#webs) this.#tell(web, member, this.#news);
    this.#news.clear();
  }

  /**
   * Tells an editor of others: each caret, or the number alone of one that is gone.
   * @param {import("ws").WebSocket} web
   * @param {Member} member
   * @param {Iterable<number>} numbers
   */
  #tell(web, member, numbers) {
    const others = [...numbers].filter((number) => number !== member.number);
    if (others.length === 0) return;
    // One that doesn't read comes back, and is told all of it then.
    if (web.bufferedAmount > UNREAD) return web.terminate();
    web.send(`[${others.map((number) => this.#members.get(number)?.caret ?? `{"number":${number}}`).join()}]`);
  }
}

/**
 * Whether a page sends more than an editor has to say.
 * @param {Member} member
 * @param {number} now
 */
function isTooMuch(member, now) {
  if (now - member.since > 1_000) Object.assign(member, { sent: 0, since: now });
  member.sent += 1;
  return member.sent > MESSAGES;
}
