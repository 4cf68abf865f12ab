/** Sessions of a daemon by WebSockets, for browsers, and for Node from version 22 on: `peritext serve --web PORT`. */

import { connectBy } from "./connecting.js";
import { Following } from "./following.js";
import { Watch } from "./watch.js";
import { WatchMany } from "./watch_many.js";

/** A daemon listens on this machine alone. */
const HOST = "127.0.0.1";

/** The code of a WebSocket's end that went well. */
const WELL = 1000;

/** The lines of a WebSocket: each message is one, both ways. */
export class WebConnection {
  /** @type {(line: string) => void} */
  onLine = () => {};
  onPart = () => {};
  onEnd = () => {};
  /**
   * Why there is no connection.
   * @type {string | undefined}
   */
  fault;
  #web;
  /**
   * What is to be sent once there is a connection.
   * @type {string[]}
   */
  #early = [];
  /** How many answers are due. */
  #due = 0;
  #isClosing = false;
  #isOver = false;

  /** @param {number} port */
  constructor(port) {
    const web = new WebSocket(`ws://${HOST}:${port}/`);
    this.#web = web;
    web.onopen = () => {
      for (const line of this.#early.splice(0)) web.send(line);
      this.#closeIfDone();
    };
    web.onmessage = ({ data }) => this.#take(data);
    // Scripts aren't told why.
    web.onerror = () => (this.fault ??= "no WebSocket could be opened, or it failed");
    web.onclose = () => this.#over();
  }

  /** @param {string} line */
  send(line) {
    this.#due += 1;
    if (this.#web.readyState === WebSocket.CONNECTING) this.#early.push(line);
    else this.#web.send(line);
  }

  /** What was sent is answered first: a WebSocket that is closing hands on no message. */
  close() {
    this.#isClosing = true;
    this.#closeIfDone();
  }

  abandon() {
    this.#web.onmessage = null;
    this.#web.close();
    queueMicrotask(() => this.#over());
  }

  /** @param {string} line */
  #take(line) {
    this.#due -= 1;
    this.onPart();
    this.onLine(line);
    this.#closeIfDone();
  }

  #closeIfDone() {
    if (this.#isClosing && this.#due <= 0) this.#web.close(WELL);
  }

  /** No more comes. */
  ended() {
    this.onEnd();
  }

  #over() {
    if (this.#isOver) return;
    this.#isOver = true;
    this.ended();
  }
}

/**
 * As `connect` has it, over a WebSocket of the daemon whose `--web` port this is. A web page has to be of an origin that the
 * daemon was given by `--origin`.
 * @param {number} port
 * @param {import("./connecting.js").Options} options
 */
export function connectWeb(port, options = {}) {
  return connectBy(() => new WebConnection(port), (fault) => noDaemon(port, fault), options);
}

/**
 * As `watch` has it, over a WebSocket of its own of the daemon whose `--web` port this is.
 * @param {number} port
 * @param {number} document
 * @param {import("./watch.js").Options} options
 */
export function watchWeb(port, document, options = {}) {
  return new Watch(() => new WebConnection(port), document, options);
}

/**
 * As `watchMany` has it, over a WebSocket of its own of the daemon whose `--web` port this is.
 * @param {number} port
 * @param {Iterable<number> | "all"} documents
 * @param {import("./watch.js").Options} options
 */
export function watchManyWeb(port, documents, options = {}) {
  return new WatchMany(() => new WebConnection(port), documents, options);
}

/**
 * As `follow` has it, over two WebSockets of the daemon whose `--web` port this is.
 * @param {number} port
 * @param {number} document
 * @param {import("./following.js").Options} options
 */
export function followWeb(port, document, options = {}) {
  return new Following(() => connectWeb(port, options), () => new WebConnection(port), document, options);
}

/**
 * @param {number} port
 * @param {string | undefined} fault
 */
function noDaemon(port, fault) {
  const start = `start \`peritext serve FILE .. --web ${port}\`, with --origin for a web page`;
  return fault === undefined ? `no session is served on port ${port}: ${start}` : `nobody takes this WebSocket on port ${port} (${fault}): ${start}`;
}
