/** A session, line by line. */

import { throwIfAborted, untilAborted } from "./aborting.js";
import { isEdit, repeated, withToken } from "./again.js";
import { NoAnswer, answerOf } from "./answers.js";
import { countsOf, roomOf } from "./counting.js";
import { Document } from "./document.js";
import { Finder, RETRY, cut } from "./finder.js";
import { check } from "./milliseconds.js";
import { Due, Owed } from "./owing.js";
import { STEPS } from "./refusal_table.js";
import { Ended, Refused } from "./refusals.js";
import { Silence, TIMEOUT } from "./silence.js";

/**
 * @typedef {import("./aborting.js").Abortable} Abortable
 * @typedef {import("./counting.js").DocumentCounts} DocumentCounts
 * @typedef {import("./counting.js").Room} Room
 * @typedef {import("./wire.js").Answer} Answer
 * @typedef {import("./wire.js").Transport} Transport
 */

/**
 * Requests and their answers, in order. Any number of requests can be under way. If no byte comes for `timeout`
 * milliseconds while an answer is due, the session ends; with null it waits as long as it takes.
 *
 * With `again` it outlives its transport: what wasn't answered is sent again over another one, in its order and before
 * anything else. Each edit has a token, under which the file makes it once. `again` tries once to reach the same file; it
 * is called again and again, for `retry` milliseconds without an answer; with null nothing is sent twice.
 */
export class Session {
  /** @type {Transport} */
  #transport;
  #timeout;
  #silence;
  /** @type {Finder | undefined} */
  #finder;
  #due = new Due();
  /** The documents whose `rev` was told in this session. */
  #told = new Set();
  /** How many transports have ended: a `rev` is none of the next one. */
  #parted = 0;
  #isOpen = true;
  /** Whether this session has asked for the end of the program. */
  #stops = false;
  /** Whether the transport ended and no other one is there yet, and whether one is looked for. */
  #isParted = false;
  #isLooking = false;
  /**
   * Why it ended, once it has.
   * @type {string | undefined}
   */
  #reason;
  /** @type {Promise<void>} */
  #end;
  /** @type {() => void} */
  #ended = () => {};

  /**
   * @param {Transport} transport
   * @param {{timeout?: number | null, again?: () => Promise<Transport>, retry?: number | null}} options
   */
  constructor(transport, { timeout = TIMEOUT, again, retry = RETRY } = {}) {
    check({ timeout, retry });
    this.#timeout = timeout;
    this.#silence = new Silence(timeout, () => this.#fallSilent());
    if (again !== undefined && retry !== null) this.#finder = new Finder(again, retry, (other) => new Session(other, { timeout }));
    this.#end = new Promise((resolve) => (this.#ended = resolve));
    this.#transport = this.#joined(transport);
  }

  /**
   * The document of a number from 1 to 2^32 - 1. One that nobody edited is empty.
   * @param {number} number
   */
  document(number) {
    return new Document(this, number);
  }

  /**
   * The answer to a request, as it comes: `Refused` where it is refused, `Ended` where none comes. What is sent first
   * is done first, so there is no need to wait for one answer before the next request. Once the signal is aborted it rejects
   * with the signal's reason: what was sent by then may be done, and what wasn't isn't sent.
   * @param {Record<string, unknown>} fields
   * @param {Abortable} options
   * @returns {Promise<Answer>}
   */
  send(fields, { signal } = {}) {
    try {
      throwIfAborted(signal);
      const owed = this.#owe(fields);
      return untilAborted(signal, owed.answer, () => this.#giveUp(owed));
    } catch (error) {
      return Promise.reject(error);
    }
  }

  /** Why this session ended, in words, once it has. */
  get reason() {
    return this.#reason;
  }

  /**
   * Whether this session was told a `rev` of a document. Before, the number of another session could name another text.
   * @param {number} document
   */
  knowsRev(document) {
    return this.#told.has(document);
  }

  /** How many transports of this session have ended. */
  get parted() {
    return this.#parted;
  }

  /**
   * Whether all that was edited is settled on the disk.
   * @param {Abortable} [options]
   */
  async settled(options) {
    const { settled, applied } = await this.send({ op: "status" }, options);
    return settled === applied;
  }

  /**
   * Who is connected to the daemon: its peers, with how many operations each has and lacks, and how many sessions. Over a
   * file it is this session alone.
   * @param {Abortable} [options]
   */
  async peers(options) {
    const { peers, sessions } = await this.send({ op: "peers" }, options);
    return { peers, sessions };
  }

  /**
   * What is counted of each document that has operations, in rising order of their numbers. What isn't settled yet is counted,
   * as `text` shows it. It costs nothing for the characters of a document. An earlier program refuses it (3).
   * @param {Abortable} [options]
   * @returns {Promise<DocumentCounts[]>}
   */
  async documents(options) {
    return countsOf(await this.send({ op: "documents" }, options));
  }

  /**
   * How much the file has of what there is a limit to, with the limits: what `peritext list` says of a file, and the steps since
   * it was opened. An earlier program refuses it (3).
   * @param {Abortable} [options]
   * @returns {Promise<Room>}
   */
  async room(options) {
    return roomOf(await this.send({ op: "room" }, options));
  }

  /**
   * Has all that was edited settled, and no more edits taken (`Refused`, 12). A daemon ends with that, for all its
   * sessions and peers.
   * @param {Abortable} [options]
   */
  async stop(options) {
    await this.send({ op: "stop" }, options);
  }

  /** Ends the session, once all that was sent is answered. */
  async close() {
    this.#isOpen = false;
    // The end of the answers is due.
    this.#silence.begin();
    if (!this.#isParted) this.#transport.close();
    else if (this.#due.isNone) this.#finish("no more answers come");
    await this.#end;
  }

  /** Ends the session at once. What waits is `Ended`, and an edit of that may be made or not. */
  abandon() {
    this.#finish("it was abandoned");
    cut(this.#transport);
  }

  /**
   * A transport whose lines are this session's.
   * @param {Transport} transport
   */
  #joined(transport) {
    transport.onPart = () => this.#silence.heard();
    transport.onLine = (line) => this.#take(line);
    transport.onEnd = () => this.#part();
    return transport;
  }

  /** @param {Record<string, unknown>} fields */
  #owe(fields) {
    if (!this.#isOpen) throw new Ended(`the session has ended (${this.#reason ?? "it was closed"})`);
    const request = this.#finder === undefined ? fields : withToken(fields);
    const line = JSON.stringify(request);
    const owed = new Owed(request);
    this.#due.add(owed);
    this.#silence.begin();
    if (this.#finder !== undefined && this.#isParted) this.#goOn(this.#finder);
    else this.#put(owed, line);
    return owed;
  }

  /**
   * Nobody waits for an answer any more. Over the next transport its request isn't sent.
   * @param {Owed} owed
   */
  #giveUp(owed) {
    owed.isGivenUp = true;
    this.#due.letGo(!this.#isParted);
    if (this.#due.isNone) this.#rest();
  }

  /** Nothing is due any more. */
  #rest() {
    this.#finder?.rest();
    if (this.#isOpen) this.#silence.end();
    else if (this.#isParted) this.#finish("no more answers come");
  }

  /**
   * @param {Owed} owed
   * @param {string} line
   */
  #put(owed, line) {
    if (this.#reason !== undefined) return;
    owed.sent += 1;
    this.#stops ||= owed.request.op === "stop";
    try {
      this.#transport.send(line);
    } catch (error) {
      // Nobody knows how much of it was sent.
      this.#cutOff(`sending failed: ${error}`);
    }
  }

  /** The transport has ended. Another one is looked for once there is something to send. */
  #part() {
    this.#due.letGo(false);
    const isOver = this.#reason !== undefined || this.#stops || (!this.#isOpen && this.#due.isNone);
    if (this.#finder === undefined || isOver) return this.#finish("no more answers come");
    this.#isParted = true;
    // What comes over it now is for nobody.
    Object.assign(this.#transport, { onLine() {}, onPart() {}, onEnd() {} });
    // What was read needn't be there again.
    this.#told.clear();
    this.#parted += 1;
    if (this.#due.isNone) this.#rest();
    else this.#goOn(this.#finder);
  }

  /**
   * Sends what waits again, over another transport. It is looked for once at a time, and no longer than anything waits.
   * @param {Finder} finder
   */
  async #goOn(finder) {
    if (this.#isLooking) return;
    this.#isLooking = true;
    const isOver = () => this.#reason !== undefined || this.#due.isNone;
    const found = await finder.find(isOver).catch((error) => this.#finish(error.message));
    this.#isLooking = false;
    if (found) this.#sendAgain(found);
    // Something was asked after all that waited had been given up.
    else if (!isOver()) this.#goOn(finder);
  }

  /** @param {Transport} transport */
  #sendAgain(transport) {
    if (this.#reason !== undefined) return cut(transport);
    this.#isParted = false;
    this.#transport = this.#joined(transport);
    this.#silence.heard();
    for (const owed of this.#due.again()) this.#put(owed, JSON.stringify(repeated(owed.request)));
    if (!this.#isOpen) transport.close();
  }

  /**
   * No answer comes any more.
   * @param {string} reason
   */
  #finish(reason) {
    this.#over(reason);
    this.#silence.close();
    this.#ended();
  }

  /** @param {string} line */
  #take(line) {
    this.#silence.heard();
    if (this.#reason !== undefined) return;
    try {
      this.#give(line);
    } catch (error) {
      // Nothing after it can be told apart.
      this.#cutOff(error instanceof NoAnswer ? error.message : `an answer couldn't be read: ${error}`);
    }
  }

  /** @param {string} line */
  #give(line) {
    const owed = this.#due.first;
    if (owed === undefined) throw new NoAnswer("a line came that nobody asked for");
    // It waits on until this is known to be its answer.
    const told = answerOf(line, owed.request);
    this.#due.answered();
    const isPutOff = this.#puts(owed, told);
    if (isPutOff) this.#due.putOff(owed);
    if (this.#due.isNone && this.#isOpen) this.#silence.end();
    if (isPutOff) return;
    this.#finder?.answered(owed.request, told);
    if (told instanceof Refused) return owed.reject(told);
    this.#note(owed, told);
    owed.resolve(told);
  }

  /**
   * Whether an edit is put off: a daemon that has no steps left opens its file anew, and ends its connections.
   * @param {Owed} owed
   * @param {Answer | Refused} told
   */
  #puts({ request, isGivenUp }, told) {
    return !isGivenUp && this.#finder !== undefined && told instanceof Refused && told.number === STEPS && request.token !== undefined;
  }

  /**
   * The answer to an edit which was sent before may be older than what is there: its `rev` isn't that of now. Who gave an answer
   * up knows no number by it: that of the transport before would be taken for one of this.
   * @param {Owed} owed
   * @param {Answer} told
   */
  #note({ request, sent, isGivenUp }, { rev }) {
    if (rev !== undefined && !isGivenUp && !(isEdit(request) && sent > 1)) this.#told.add(request.doc);
  }

  #fallSilent() {
    this.#cutOff(`no byte came for ${this.#timeout} milliseconds, its timeout`);
    // A transport that can't be cut off is waited for no longer.
    this.#ended();
  }

  /** @param {string} reason */
  #cutOff(reason) {
    this.#over(reason);
    cut(this.#transport);
  }

  /**
   * Ends the session, unless it has ended, and tells all that wait.
   * @param {string} reason
   */
  #over(reason) {
    this.#isOpen = false;
    this.#reason ??= reason;
    const left = this.#due.takeAll();
    const words = `the session ended before this request was answered (${this.#reason}): begin another one, and read what is there`;
    for (const { reject, sent } of left) reject(new Ended(words, { wasSent: sent > 0 }));
  }
}
