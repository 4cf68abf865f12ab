/** A daemon of the program over a file, which is started, killed and started again. */

import { spawn } from "node:child_process";
import { once } from "node:events";
import { createServer } from "node:net";

import { connect } from "../../js/src/node.js";
import { NoDaemon, refused } from "../../js/src/refusals.js";

const HOST = "127.0.0.1";

/** How often other ports are tried where somebody took one meanwhile (70). */
const TRIES = 5;

/** Milliseconds between two looks whether it listens, and those that it has to end. */
const LOOK = 30;
const END = 4_000;

export class Daemon {
  #program;
  #file;
  #link;
  #origins;
  #onChange;
  #child;
  #starting;

  /** `starting`, `running` or `ended`. */
  state = "ended";
  /** Why it ended, in words. */
  fault = "";
  /** Where it listens, while it runs. */
  ports = undefined;

  /**
   * @param {object} parts
   * @param {string} parts.program
   * @param {string} parts.file
   * @param {number} [parts.link] the port behind which the other daemon is
   * @param {string[]} parts.origins whose pages may come in
   * @param {() => void} parts.onChange
   */
  constructor({ program, file, link, origins, onChange }) {
    this.#program = program;
    this.#file = file;
    this.#link = link;
    this.#origins = origins;
    this.#onChange = onChange;
  }

  /** Starts it, unless it runs, and waits until it takes sessions. The refusal that ends it is thrown. */
  async start() {
    if (this.state === "running") return;
    this.#starting ??= this.#startAnywhere().finally(() => (this.#starting = undefined));
    await this.#starting;
  }

  async #startAnywhere() {
    for (let left = TRIES; ; left -= 1) {
      try {
        return await this.#startOnce();
      } catch (error) {
        if (error.number !== 70 || left === 0) throw error;
      }
    }
  }

  /** Kills it as a power cut would: nothing is asked of it first. */
  kill() {
    this.#child?.kill("SIGKILL");
  }

  /** Asks it to stop, and kills it where it doesn't. */
  async stop() {
    const child = this.#child;
    if (child === undefined) return;
    const ended = once(child, "exit");
    const timer = setTimeout(() => child.kill("SIGKILL"), END);
    await this.#askToStop().catch(() => child.kill("SIGKILL"));
    await ended;
    clearTimeout(timer);
  }

  async #startOnce() {
    const [sessions, peers, web] = await freePorts(3);
    const link = this.#link === undefined ? [] : ["--link", this.#link];
    const pages = ["--web", web, ...this.#origins.flatMap((origin) => ["--origin", origin])];
    const words = ["serve", this.#file, "--sessions", sessions, "--peers", peers, ...link, ...pages];
    // In a group of its own: Ctrl-C is for who started this, and that one asks the daemon to stop.
    const child = spawn(this.#program, words, { stdio: ["ignore", "ignore", "pipe"], detached: true });
    this.#child = child;
    this.fault = "";
    this.#become("starting", undefined);
    const end = this.#endOf(child);
    await Promise.race([isServing(sessions, () => this.#child === child), end.then((error) => Promise.reject(error))]);
    this.#become("running", { sessions, peers, web });
  }

  /** Why a child ended, once it has. */
  async #endOf(child) {
    let said = "";
    child.stderr.setEncoding("utf8").on("data", (part) => (said = (said + part).slice(0, 1_000)));
    // A program that isn't there has an error in place of an end.
    const fault = await once(child, "close").then(() => undefined, (error) => error);
    const [, number, word] = /^peritext: (\d+) (.*)/.exec(said) ?? [];
    const error = fault ?? (number ? refused(Number(number), word) : new Error(said.trim() || (child.signalCode ? "killed" : "stopped")));
    this.#child = undefined;
    this.fault = error.message;
    this.#become("ended", undefined);
    return error;
  }

  async #askToStop() {
    const session = await connect(this.ports.sessions);
    await session.stop();
    await session.close();
  }

  #become(state, ports) {
    this.state = state;
    this.ports = ports;
    this.#onChange();
  }
}

/** Waits until a session is served on a port, or is waited for no more. */
async function isServing(port, isAwaited) {
  while (isAwaited()) {
    try {
      const session = await connect(port);
      return await session.close();
    } catch (error) {
      if (!(error instanceof NoDaemon)) throw error;
      await new Promise((done) => setTimeout(done, LOOK));
    }
  }
}

/** Ports on which nobody listens now. */
async function freePorts(count) {
  const servers = [...Array(count)].map(() => createServer().listen(0, HOST));
  await Promise.all(servers.map((server) => once(server, "listening")));
  const ports = servers.map((server) => server.address().port);
  await Promise.all(servers.map((server) => new Promise((done) => server.close(done))));
  return ports;
}
