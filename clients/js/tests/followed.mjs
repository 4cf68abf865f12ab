// A document of a store in memory that is followed, over transports that can be lost.

import assert from "node:assert/strict";
import { setTimeout as pause } from "node:timers/promises";

import { Following, Session } from "peritext";

import { Store } from "./fake.mjs";
import { soon } from "./talk.mjs";

/** A store whose first document is followed: another one can be put in its place, and nobody be there, or nobody who answers. */
export class Followed {
  store = new Store();
  isThere = true;
  isSilent = false;
  /** What a watch is told in place of numbers. */
  refusal;
  /** What was asked for, by all sessions. */
  asked = [];
  sessions = [];
  watchers = [];

  constructor(options = {}) {
    const { retry = 2_000 } = options;
    const connect = async () => {
      if (this.isSilent) await new Promise(() => {});
      return new Session(this.#session(), { again: async () => this.#session(), retry });
    };
    this.following = new Following(connect, () => this.#watcher(), 1, { retry, ...options });
    this.editor = new Session(this.store.session()).document(1);
  }

  get session() {
    return this.sessions.at(-1);
  }

  get watcher() {
    return this.watchers.at(-1);
  }

  #session() {
    if (!this.isThere) throw new Error("nobody is there");
    const session = this.store.session();
    const { send } = session;
    session.send = (line) => {
      this.asked.push(JSON.parse(line).op);
      send.call(session, line);
    };
    session.abandon = () => session.cut(0);
    this.sessions.push(session);
    return session;
  }

  #watcher() {
    if (!this.isThere) throw new Error("nobody is there");
    const watcher = this.store.watcher();
    const { refusal } = this;
    if (refusal !== undefined) watcher.send = () => setImmediate(() => watcher.onLine(refusal));
    this.watchers.push(watcher);
    return watcher;
  }

  /** Both connections are lost, as where the daemon goes. */
  cut() {
    this.session.cut(0);
    this.watcher.close();
  }

  async next() {
    return (await soon(this.following.next())).value;
  }

  /** Soon all transports are closed, and no other one is begun. */
  async assertEnded() {
    const areEnded = () => this.sessions.every((session) => session.hasEnded) && this.watchers.every((watcher) => watcher.isOver);
    for (let tries = 0; !areEnded() && tries < 100; tries += 1) await pause(10);
    const begun = this.sessions.length + this.watchers.length;
    await pause(60);
    assert(areEnded());
    assert.equal(this.sessions.length + this.watchers.length, begun);
  }
}
