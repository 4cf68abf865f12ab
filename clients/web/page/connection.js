/**
 * One side's connection to its daemon, which is made again and again, and the documents that are followed over it: what
 * others do there is shown as soon as the daemon tells of it.
 */

import { Ended, Refused, Session, Watch, WatchMany } from "peritext";

import { seen } from "./seen.js";
import { ToldOfAll } from "./told_of_all.js";
import { Wire } from "./wire.js";

/**
 * Milliseconds between two looks at what others did, if the daemon doesn't tell of it, and between two tries to reach the
 * daemon.
 */
const LOOK = 200;
const AGAIN = 400;

/**
 * A document that is followed: `over` begins or resumes its binding over a session, and is told nothing between two of them.
 * @typedef {object} Followed
 * @property {number} number
 * @property {(document?: import("../../js/src/document.js").Document) => Promise<void> | void} over
 * @property {() => Promise<void>} pull
 * @property {() => Promise<void>} settled
 * @property {number} rev
 */

export class Connection {
  /** Where the daemon takes WebSockets, while it runs. */
  #port;
  /** The session that there is, its wire, and what tells of all documents. */
  #here;
  /**
   * What is followed, each with what ends that.
   * @type {Map<Followed, AbortController>}
   */
  #followed = new Map();
  #onError;
  #onPull;

  /** @param {{onError: (error: Error) => void, onPull: () => void}} listeners `onPull`: what others did was read */
  constructor({ onError, onPull }) {
    this.#onError = onError;
    this.#onPull = onPull;
    this.#run();
  }

  set port(port) {
    this.#port = port;
  }

  /**
   * Follows a document from now on, over each session.
   * @param {Followed} one
   */
  follow(one) {
    if (this.#followed.has(one)) return;
    this.#followed.set(one, new AbortController());
    if (this.#here !== undefined) this.#serve(one, this.#here);
  }

  /**
   * Follows it no longer.
   * @param {Followed} one
   */
  leave(one) {
    if (!this.#followed.has(one)) return;
    this.#followed.get(one).abort();
    this.#followed.delete(one);
    one.over(undefined);
  }

  /** The replicas that are linked with the daemon now. */
  async linked() {
    const { peers } = (await this.#here?.session.peers()) ?? { peers: [] };
    return peers.map(({ replica }) => replica);
  }

  /** Connects to the daemon again and again: what is typed meanwhile waits in the editor, and is sent after it. */
  async #run() {
    for (;;) {
      if (this.#port !== undefined) await this.#serveAll(this.#port);
      await pause(AGAIN);
    }
  }

  /** Serves all that is followed over one connection, to its end. */
  async #serveAll(port) {
    const wire = new Wire(port);
    let all;
    try {
      const session = new Session(wire);
      // The last place is for those who first ask for the status.
      await session.settled();
      all = new ToldOfAll(new WatchMany(() => new Wire(port), "all", { retry: null }));
      this.#here = { session, wire, port, all };
      for (const one of this.#followed.keys()) this.#serve(one, this.#here);
      await wire.over;
    } catch (error) {
      this.#onError(error);
    }
    this.#here = undefined;
    for (const one of this.#followed.keys()) one.over(undefined);
    all?.close();
    wire.close();
  }

  /** Shows what others do in a document, until the session ends, or it is followed no longer. */
  async #serve(one, { session, wire, port, all }) {
    const { signal } = this.#followed.get(one);
    const isOver = () => wire.isOver || signal.aborted;
    try {
      await one.over(session.document(one.number));
      await this.#pull(one);
      await this.#followTold(one, all.of(one.number, signal), wire);
      // An earlier daemon tells of one document over a connection.
      if (!isOver()) await this.#followAlone(one, port, wire, signal);
      // One that is still earlier doesn't tell, nor one without a place for that.
      while (!isOver()) {
        await this.#pull(one);
        await pause(LOOK);
        await Promise.race([seen(), wire.over]);
      }
    } catch (error) {
      if (isOver()) return;
      this.#onError(error);
      wire.close();
    }
  }

  async #followAlone(one, port, wire, signal) {
    const watch = new Watch(() => new Wire(port), one.number, { retry: null });
    wire.over.then(() => watch.close());
    signal.addEventListener("abort", () => watch.close());
    try {
      await this.#followTold(one, watch, wire);
    } finally {
      watch.close();
    }
  }

  /**
   * Shows what others do as soon as the daemon tells of it, for as long as it does. In the background nothing is asked for:
   * all that came meanwhile is one change, once the page is seen again.
   * @param {Followed} one
   * @param {AsyncIterable<number>} revs
   * @param {Wire} wire
   */
  async #followTold(one, revs, wire) {
    try {
      for await (const rev of revs) {
        await Promise.race([seen(), wire.over]);
        // What this page did itself it reads by itself.
        await one.settled();
        if (rev > one.rev) await this.#pull(one);
      }
    } catch (error) {
      if (!(error instanceof Ended || error instanceof Refused)) throw error;
    }
  }

  async #pull(one) {
    await one.pull();
    this.#onPull();
  }
}

function pause(milliseconds) {
  return new Promise((done) => setTimeout(done, milliseconds));
}
