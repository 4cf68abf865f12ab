// What stands between clients and a daemon: it cuts connections, and counts what goes over them.

import { once } from "node:events";
import { connect, createServer } from "node:net";

/** A port that leads to another one. */
export class Proxy {
  /** The requests, and how many numbers a watch was told. */
  asked = [];
  told = 0;
  #port;
  #pairs = new Set();
  #server = createServer({ allowHalfOpen: true, noDelay: true }, (socket) => this.#join(socket));

  constructor(port) {
    this.#port = port;
  }

  async listen() {
    this.#server.listen(0, "127.0.0.1");
    await once(this.#server, "listening");
    return this.#server.address().port;
  }

  /** Cuts the connections of watches, or the others, or all. */
  cut(isCut = () => true) {
    for (const pair of this.#pairs) if (isCut(pair.isWatch)) pair.end();
  }

  close() {
    this.#server.close();
    this.cut();
  }

  #join(socket) {
    const daemon = connect({ host: "127.0.0.1", port: this.#port, allowHalfOpen: true, noDelay: true });
    const pair = { isWatch: false, end: () => [socket, daemon].forEach((one) => one.destroy()) };
    this.#pairs.add(pair);
    for (const one of [socket, daemon]) {
      one.on("error", () => {}).on("close", () => {
        this.#pairs.delete(pair);
        pair.end();
      });
    }
    // A request comes in one part: it is small.
    socket.on("data", (part) => {
      for (const line of String(part).trimEnd().split("\n")) this.#ask(pair, JSON.parse(line).op);
    });
    daemon.on("data", (part) => (this.told += pair.isWatch ? String(part).split("\n").length - 1 : 0));
    socket.pipe(daemon).pipe(socket);
  }

  #ask(pair, op) {
    pair.isWatch ||= op === "watch";
    this.asked.push(op);
  }
}
