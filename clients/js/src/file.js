/** Sessions of a program of their own, for Node. */

import { spawn } from "node:child_process";
import { randomUUID } from "node:crypto";

import { throwIfAborted } from "./aborting.js";
import { Lines } from "./lines.js";
import { check } from "./milliseconds.js";
import { Ended, refused } from "./refusals.js";
import { Session } from "./session.js";

/** The lines of a child process. */
class Child {
  /** @type {(line: string) => void} */
  onLine = () => {};
  onPart = () => {};
  onEnd = () => {};
  #child;
  #said = "";
  wasAbandoned = false;
  #lines = new Lines();

  /**
   * @param {string} program
   * @param {string[]} words
   */
  constructor(program, words) {
    const child = spawn(program, words, { stdio: ["pipe", "pipe", "pipe"] });
    this.#child = child;
    // A program that ended takes nothing more; its end is told below.
    child.stdin.on("error", () => {});
    child.stdout.setEncoding("utf8").on("data", (chunk) => this.#take(chunk));
    child.stderr.setEncoding("utf8").on("data", (chunk) => (this.#said += chunk));
    /** @type {Promise<number | string | null>} */
    this.end = new Promise((resolve) => {
      child.on("error", (error) => resolve(`${error.message}: build the program with \`make peritext\`, and put it on the path or name it by { program }`));
      child.on("close", resolve);
    });
    this.end.then(() => this.onEnd());
  }

  /** @param {string} line */
  send(line) {
    this.#child.stdin.write(`${line}\n`);
  }

  close() {
    this.#child.stdin.end();
  }

  /** Kills the program: what it answered is in the file, which is free then. */
  abandon() {
    this.#child.kill("SIGKILL");
    // What else has its ends of the pipes isn't waited for.
    for (const pipe of [this.#child.stdin, this.#child.stdout, this.#child.stderr]) pipe.destroy();
    this.wasAbandoned = true;
  }

  /** Waits for the program, and throws what its end tells, if it isn't a good one. */
  async check() {
    const status = await this.end;
    const said = this.#said.trim();
    const [, number, word] = /^peritext: (\d+) (.*)$/s.exec(said) ?? [];
    if (number !== undefined) throw refused(Number(number), word);
    if (typeof status === "string") throw new Ended(status);
    if (status !== 0) throw new Ended(said || `the program ended with status ${status}`);
  }

  /** @param {string} chunk */
  #take(chunk) {
    this.onPart();
    for (const line of this.#lines.take(chunk)) this.onLine(line);
  }
}

/** A session of a program of its own, which holds the file alone. */
export class FileSession extends Session {
  #child;

  /**
   * @param {string} program
   * @param {string} file
   * @param {{timeout?: number | null}} options
   */
  constructor(program, file, options) {
    // Before the program runs: it would keep the file.
    check(options);
    const child = new Child(program, ["edit", file]);
    super(child, options);
    this.#child = child;
  }

  /** Ends the session and waits for the program. `Refused` if it ends by a refusal. */
  async close() {
    await super.close();
    if (this.#child.wasAbandoned) throw new Ended(`the session has ended (${this.reason})`);
    await this.#child.check();
  }
}

/**
 * Makes the file of a new replica, with an id that nobody else has, and gives that id.
 * @param {string} file
 * @param {{replica?: string, program?: string}} options
 */
export async function init(file, { replica = randomUUID(), program = "peritext" } = {}) {
  const child = new Child(program, ["init", file, "--replica", replica]);
  child.close();
  await child.check();
  return replica;
}

/**
 * A session over a file, which no other program can have open meanwhile. `Refused` if it can't be opened, as 54 if
 * another program has it. It sends nothing twice by itself: an edit that wasn't answered can be sent with its `token` again,
 * once the file is opened anew.
 * @param {string} file
 * @param {{program?: string, timeout?: number | null, signal?: AbortSignal}} options `timeout`: milliseconds without a byte
 *   while an answer is due, or null for no limit; `signal` ends the opening, if it is aborted before there is a session
 */
export async function open(file, { program = "peritext", timeout, signal } = {}) {
  throwIfAborted(signal);
  const session = new FileSession(program, file, { timeout });
  try {
    await session.send({ op: "status" }, { signal });
  } catch (error) {
    // A program that opens a long file would keep it.
    if (signal?.aborted) session.abandon();
    else await session.close();
    throw error;
  }
  return session;
}
