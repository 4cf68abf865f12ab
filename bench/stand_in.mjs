// In place of a daemon: a store in memory, by WebSockets, which takes no time of a disk or of another process. It knows what the
// page of clients/web asks, and answers in JavaScript, over the store of clients/js/tests.

import { once } from "node:events";

import { Store } from "../clients/js/tests/fake.mjs";
import { webSockets } from "../clients/web/src/packages.js";

const REPLICA = "3f2b8a54-9c1d-4e77-8a30-5d6c7b8e9f01";

/** How much one edit puts in. */
const PART = 256;

export class StandIn {
  #store = new Store();
  #number;
  #document;
  /** The characters that were named, by their numbers. */
  #named = new Map();
  #sockets;
  /** How many milliseconds its answers took: it goes over all characters for each. */
  spent = 0;

  /** @param {number} number the document of which it knows places, and that is filled */
  constructor(number) {
    this.#number = number;
    this.#document = this.#store.document(number);
    const { answer } = this.#store;
    this.#store.answer = (line) => {
      const begun = performance.now();
      const told = answer.call(this.#store, line);
      this.spent += performance.now() - begun;
      return told;
    };
  }

  /** Listens, and gives the port. */
  async listen() {
    this.#sockets = new (webSockets().WebSocketServer)({ host: "127.0.0.1", port: 0 });
    this.#sockets.on("connection", (web) => this.#take(web));
    await once(this.#sockets, "listening");
    return this.#sockets.address().port;
  }

  close() {
    for (const web of this.#sockets.clients) web.terminate();
    this.#sockets.close();
  }

  /** Puts a text in at the start, as somebody else does. */
  fill(text) {
    for (let at = 0; at < text.length; at += PART) this.insert(at, text.slice(at, at + PART));
  }

  /** Puts a text in, as somebody else does. */
  insert(at, text) {
    this.#store.answer(JSON.stringify({ op: "insert", doc: this.#number, at, text }));
  }

  #take(web) {
    let line;
    web.on("message", (data) => {
      const request = JSON.parse(String(data));
      const own = { anchors: () => this.#anchors(request), places: () => this.#places(request) }[request.op];
      if (own !== undefined) return web.send(JSON.stringify(own()));
      if (line === undefined) {
        line = request.op === "watch" ? this.#store.watcher() : this.#store.session();
        line.onLine = (answer) => web.send(answer);
        line.onEnd = () => web.close();
      }
      line.send(String(data));
    });
    web.on("close", () => line?.close());
    web.on("error", () => web.terminate());
  }

  #anchors({ at, rev, side }) {
    const { rev: now } = this.#document;
    if (rev !== undefined && rev !== now) return { code: 6, error: "stale", ok: false };
    const shown = this.#document.at(now);
    const anchors = at.map((place) => this.#nameOf(shown[side === "next" ? place : place - 1], side));
    return { ok: true, anchors, rev: now };
  }

  #nameOf(character, side) {
    if (character === undefined) return side === "next" ? "end" : "start";
    character.number ??= this.#named.size + 1;
    this.#named.set(character.number, character);
    return `${side === "next" ? "b" : "a"}${character.number}@${REPLICA}`;
  }

  #places({ anchors, rev }) {
    const { rev: now } = this.#document;
    if (rev !== undefined && rev !== now) return { code: 6, error: "stale", ok: false };
    return { ok: true, places: anchors.map((anchor) => this.#placeOf(anchor)), rev: now };
  }

  #placeOf(anchor) {
    const shown = this.#document.at(this.#document.rev);
    if (anchor === "start") return 0;
    if (anchor === "end") return shown.length;
    const [, letter, number] = /^([ab])(\d+)@/.exec(anchor);
    return shown.indexOf(this.#named.get(Number(number))) + (letter === "a" ? 1 : 0);
  }
}
