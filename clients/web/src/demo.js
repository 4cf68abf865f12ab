/** Two daemons over a file each, the wire between them, and the page that shows both. */

import { existsSync, mkdirSync } from "node:fs";
import { join } from "node:path";

import { init } from "../../js/src/node.js";
import { Daemon } from "./daemon.js";
import { Files } from "./files.js";
import { PageServer } from "./page_server.js";
import { Presence } from "./presence.js";
import { Relay } from "./relay.js";

/** Whose files there are. The second daemon joins the first one, through the relay. */
export const NAMES = ["alice", "bob"];

export class Demo {
  #program;
  #folder;
  #daemons = new Map();
  #webs = new Set();
  #told = "";
  #relay = new Relay(() => this.#daemons.get(NAMES[0])?.ports?.peers, () => this.#tell());
  #presence = new Presence();
  #server = new PageServer({
    files: new Files(),
    doors: { control: (web) => this.#control(web), presence: (web) => this.#presence.take(web) },
  });

  /**
   * @param {string} program
   * @param {string} folder where the files are, or come to be
   */
  constructor(program, folder) {
    this.#program = program;
    this.#folder = folder;
  }

  /** Starts all of it, and gives the page's address. Where a daemon can't be started, nothing is left running. */
  async start() {
    const relay = await this.#relay.listen();
    try {
      await this.#server.listen();
      for (const [index, name] of NAMES.entries()) await this.#startOver(name, index === 0 ? undefined : relay);
      return this.#server.address;
    } catch (error) {
      await this.stop();
      throw error;
    }
  }

  /** Stops both daemons, behind all that they were told. */
  async stop() {
    this.#server.close();
    await Promise.all([...this.#daemons.values()].map((daemon) => daemon.stop()));
    this.#relay.close();
  }

  /** Kills both daemons at once: what they answered is in their files. */
  kill() {
    for (const daemon of this.#daemons.values()) daemon.kill();
  }

  /** The wire between both daemons. */
  get link() {
    return this.#relay;
  }

  /** The daemon of a name. */
  daemon(name) {
    return this.#daemons.get(name);
  }

  async #startOver(name, link) {
    const file = join(this.#folder, name);
    if (!existsSync(file)) {
      mkdirSync(this.#folder, { recursive: true });
      await init(file, { program: this.#program });
    }
    const { origins } = this.#server;
    const daemon = new Daemon({ program: this.#program, file, link, origins, onChange: () => this.#tell() });
    this.#daemons.set(name, daemon);
    await daemon.start();
  }

  /** What the page shows of all this. */
  #state() {
    const daemons = [...this.#daemons].map(([name, { state, fault, ports }]) => [name, { state, fault, web: ports?.web }]);
    return JSON.stringify({ link: this.#relay.state, daemons: Object.fromEntries(daemons) });
  }

  #tell() {
    const state = this.#state();
    if (state === this.#told) return;
    this.#told = state;
    for (const web of this.#webs) web.send(state);
  }

  #control(web) {
    this.#webs.add(web);
    web.on("close", () => this.#webs.delete(web));
    web.on("error", () => web.terminate());
    web.on("message", (data) => this.#do(String(data)));
    web.send(this.#state());
  }

  /** @param {string} command `part`, `join`, `kill NAME` or `start NAME`; anything else does nothing */
  #do(command) {
    const [word, name] = command.split(" ");
    const daemon = this.#daemons.get(name);
    if (word === "part") this.#relay.part();
    if (word === "join") this.#relay.join();
    if (word === "kill") daemon?.kill();
    // Why it can't be started is in what the page is told.
    if (word === "start") daemon?.start().catch(() => {});
  }
}
