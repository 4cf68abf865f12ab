/** The wire between two daemons, which can be cut and let through again. */

import { once } from "node:events";
import { createConnection, createServer } from "node:net";

const HOST = "127.0.0.1";

export class Relay {
  #portOf;
  #onChange;
  #server = createServer((socket) => this.#take(socket));
  #pairs = new Set();
  #isOpen = true;

  /**
   * @param {() => number | undefined} portOf where it leads to now
   * @param {() => void} onChange
   */
  constructor(portOf, onChange) {
    this.#portOf = portOf;
    this.#onChange = onChange;
  }

  /** Listens on a port that the system chooses, and gives it. It listens while it is cut too: a daemon wants that at its start. */
  async listen() {
    this.#server.listen(0, HOST);
    await once(this.#server, "listening");
    return this.#server.address().port;
  }

  /** `parted`, `joining` until both daemons were heard, then `linked`. */
  get state() {
    if (!this.#isOpen) return "parted";
    return [...this.#pairs].some(({ heard }) => heard.size === 2) ? "linked" : "joining";
  }

  part() {
    this.#isOpen = false;
    for (const { end } of [...this.#pairs]) end();
    this.#onChange();
  }

  join() {
    this.#isOpen = true;
    this.#onChange();
  }

  close() {
    this.part();
    this.#server.close();
  }

  #take(socket) {
    const port = this.#portOf();
    socket.on("error", () => {});
    if (!this.#isOpen || port === undefined) return socket.destroy();
    this.#carry(socket, createConnection({ host: HOST, port, noDelay: true }));
  }

  #carry(one, other) {
    const pair = { heard: new Set(), end: () => {} };
    pair.end = () => {
      one.destroy();
      other.destroy();
      if (this.#pairs.delete(pair)) this.#onChange();
    };
    this.#pairs.add(pair);
    for (const [from, to] of [[one, other], [other, one]]) {
      from.setNoDelay(true);
      from.on("error", pair.end);
      from.on("close", pair.end);
      from.once("data", () => {
        pair.heard.add(from);
        this.#onChange();
      });
      from.pipe(to);
    }
  }
}
