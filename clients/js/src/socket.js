/** Sessions of a daemon, for Node: `peritext serve` has a file open for many programs at once. */

import { createConnection } from "node:net";

import { connectBy } from "./connecting.js";
import { Following } from "./following.js";
import { Lines } from "./lines.js";
import { Watch } from "./watch.js";
import { WatchMany } from "./watch_many.js";

/** A daemon listens on this machine alone. */
const HOST = "127.0.0.1";

/** The lines of a connection. */
class Connection {
  /** @type {(line: string) => void} */
  onLine = () => {};
  onPart = () => {};
  onEnd = () => {};
  /**
   * Why there is no connection.
   * @type {string | undefined}
   */
  fault;
  #socket;

  /** @param {number} port */
  constructor(port) {
    // A request is small, and waits for nothing; after the last one the answers still come.
    const socket = createConnection({ host: HOST, port, noDelay: true, allowHalfOpen: true });
    const lines = new Lines();
    this.#socket = socket;
    socket.setEncoding("utf8").on("data", (/** @type {string} */ part) => {
      this.onPart();
      for (const line of lines.take(part)) this.onLine(line);
    });
    socket.on("end", () => socket.end());
    socket.on("error", (error) => (this.fault = error.message));
    socket.on("close", () => this.onEnd());
  }

  /** @param {string} line */
  send(line) {
    this.#socket.write(`${line}\n`);
  }

  close() {
    this.#socket.end();
  }

  abandon() {
    this.#socket.destroy();
  }
}

/**
 * A session of the daemon whose `--sessions` port this is. `NoDaemon` if there is none; `Refused` with the number 8 if
 * all 32 places are taken.
 *
 * If the connection ends, the session connects again to the same port, which it takes for the same file, and sends again
 * what wasn't answered. It asks first for an edit that it was answered, and is `Ended` if another file is served there.
 * @param {number} port
 * @param {import("./connecting.js").Options} options
 */
export function connect(port, options = {}) {
  return connectBy(() => new Connection(port), (fault) => noDaemon(port, fault), options);
}

/**
 * Tells of the changes of a document of the daemon whose `--sessions` port this is, over a connection of its own, which
 * takes a place more.
 * @param {number} port
 * @param {number} document
 * @param {import("./watch.js").Options} options
 */
export function watch(port, document, options = {}) {
  return new Watch(() => new Connection(port), document, options);
}

/**
 * Tells of the changes of many documents, 1 to 1,024 of them or `"all"`, new ones too, over one connection, which takes one place
 * more.
 * @param {number} port
 * @param {Iterable<number> | "all"} documents
 * @param {import("./watch.js").Options} options
 */
export function watchMany(port, documents, options = {}) {
  return new WatchMany(() => new Connection(port), documents, options);
}

/**
 * Shows a document of the daemon whose `--sessions` port this is, and each change of it. It has a session and a watch, which
 * take two places.
 * @param {number} port
 * @param {number} document
 * @param {import("./following.js").Options} options
 */
export function follow(port, document, options = {}) {
  return new Following(() => connect(port, options), () => new Connection(port), document, options);
}

/**
 * @param {number} port
 * @param {string | undefined} fault
 */
function noDaemon(port, fault) {
  return fault === undefined
    ? `no session is served on port ${port}: name the port behind --sessions, not that behind --peers`
    : `nobody listens on port ${port} (${fault}): start \`peritext serve FILE --sessions ${port} --peers PORT\``;
}
