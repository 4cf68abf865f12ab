/** A server for one page on this machine: its files, and WebSockets for its controls and for its carets. */

import { once } from "node:events";
import { createServer } from "node:http";

import { webSockets } from "./packages.js";

const HOST = "127.0.0.1";

/** A command is short, and so is what is said of a caret. */
const MESSAGE = 1 << 10;

/** How many WebSockets there are at once at one path. */
const PLACES = 64;

export class PageServer {
  #files;
  #server;
  #doors;

  /**
   * @param {object} parts
   * @param {import("./files.js").Files} parts.files
   * @param {Record<string, (web: import("ws").WebSocket) => void>} parts.doors what takes the WebSockets of a path, by its name
   */
  constructor({ files, doors }) {
    this.#files = files;
    this.#doors = new Map(Object.entries(doors).map(([name, take]) => [`/${name}`, { take, sockets: newSockets() }]));
    this.#server = createServer((request, response) => this.#answer(request, response));
    this.#server.on("upgrade", (request, socket, head) => this.#upgrade(request, socket, head));
  }

  /** Listens on a port that the system chooses. */
  async listen() {
    this.#server.listen(0, HOST);
    await once(this.#server, "listening");
  }

  /** The origins of the page, as browsers name them: by each name that it is served under. */
  get origins() {
    const { port } = this.#server.address();
    return [`http://${HOST}:${port}`, `http://localhost:${port}`];
  }

  /** The page's address. */
  get address() {
    return `${this.origins[0]}/`;
  }

  close() {
    for (const { sockets } of this.#doors.values()) for (const web of sockets.clients) web.terminate();
    this.#server.close();
    this.#server.closeAllConnections();
  }

  /** Whether a request is for this server by name: other names for this machine may be another site's. */
  #isHere({ headers }) {
    const { port } = this.#server.address();
    return headers.host === `${HOST}:${port}` || headers.host === `localhost:${port}`;
  }

  #answer(request, response) {
    if (!this.#isHere(request)) return refuse(response, 403);
    if (request.method !== "GET" && request.method !== "HEAD") return refuse(response, 405);
    const found = this.#files.get(request.url);
    if (found === undefined) return refuse(response, 404);
    response.writeHead(200, found.headers);
    response.end(request.method === "GET" ? found.content : undefined);
  }

  #upgrade(request, socket, head) {
    socket.on("error", () => socket.destroy());
    if (!this.#isHere(request) || request.headers.origin !== `http://${request.headers.host}`) return end(socket, "403 Forbidden");
    const door = this.#doors.get(request.url);
    if (door === undefined) return end(socket, "404 Not Found");
    if (door.sockets.clients.size >= PLACES) return end(socket, "503 Service Unavailable");
    door.sockets.handleUpgrade(request, socket, head, door.take);
  }
}

function newSockets() {
  return new (webSockets().WebSocketServer)({ noServer: true, maxPayload: MESSAGE });
}

function refuse(response, status) {
  response.writeHead(status, { "Content-Type": "text/plain" });
  response.end(`${status}\n`);
}

function end(socket, status) {
  socket.end(`HTTP/1.1 ${status}\r\nConnection: close\r\nContent-Length: 0\r\n\r\n`);
}
