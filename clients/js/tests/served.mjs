// Daemons of the real program, which PERITEXT names.

import assert from "node:assert/strict";
import { spawn } from "node:child_process";
import { once } from "node:events";
import { connect as connectTo } from "node:net";
import { resolve } from "node:path";

import { STRONG, Stale, init } from "peritext";

import { withFile } from "./support.mjs";

export const program = resolve(process.env.PERITEXT ?? "bin/peritext");

/** Two sessions of one daemon see what each other did, and a stale edit is refused. Both are closed then. */
export async function seeEachOther(one, other) {
  await one.document(1).insert(0, "The quick 🦊");
  const reading = await one.document(1).read();
  await other.document(1).mark(4, 9, STRONG);
  await assert.rejects(reading.insert(0, "x"), Stale);
  assert.deepEqual(await one.document(1).spans(), [{ text: "The " }, { strong: true, text: "quick" }, { text: " 🦊" }]);
  await one.close();
  await other.close();
}

// Ports below those that the system gives to connections by itself, and apart from those of the other tests of the gate.
const FIRST_PORT = 16_000;
const PORTS = 4_000;
let number = Math.floor(Math.random() * PORTS);

/** A port on which nobody listens now, and that this file wasn't given before. */
export async function freePort() {
  for (;;) {
    const port = FIRST_PORT + (number++ % PORTS);
    if (!(await isHeard(port))) return port;
  }
}

async function isHeard(port) {
  const socket = connectTo(port, "127.0.0.1");
  const heard = await once(socket, "connect").then(() => true, () => false);
  socket.destroy();
  return heard;
}

/**
 * A daemon over a file, on a port for sessions that may be given, and one for WebSockets if there is to be one. It links to a
 * peer if it is given its port.
 */
export async function start(file, given, web, peer) {
  const [port, peers] = [given ?? (await freePort()), await freePort()];
  const pages = web === undefined ? [] : ["--web", web];
  const links = peer === undefined ? [] : ["--link", peer];
  const child = spawn(program, ["serve", file, "--sessions", port, "--peers", peers, ...pages, ...links], { stdio: "ignore" });
  const ended = once(child, "exit");
  while (!(await isHeard(port))) await new Promise((done) => setTimeout(done, 20));
  const kill = async () => {
    child.kill("SIGKILL");
    await ended;
  };
  return { port, peers, pid: child.pid, ended, kill };
}

/** Runs a test over a daemon that is gone afterwards, with a port for WebSockets if it is given one. */
export function withDaemon(work, web) {
  return withFile(async (file) => {
    await init(file, { program });
    const daemon = await start(file, undefined, web);
    try {
      await work(daemon, file);
    } finally {
      await daemon.kill();
    }
  });
}
