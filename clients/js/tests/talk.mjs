// A daemon, or a program, that answers what a test says.

import { once } from "node:events";
import { chmodSync, writeFileSync } from "node:fs";
import { createServer } from "node:net";
import { join } from "node:path";
import { createInterface } from "node:readline";

export const STATUS = '{"applied":0,"ok":true,"settled":0,"state":"open"}';

/**
 * Runs a test with the port of a daemon that greets each session, after so many milliseconds, and has `talk` speak to it
 * before it ends the connection.
 */
export async function withTalk(talk, work, after = 0) {
  const sockets = new Set();
  const server = createServer({ allowHalfOpen: true, noDelay: true }, async (socket) => {
    sockets.add(socket);
    socket.on("error", () => {});
    const lines = createInterface({ input: socket })[Symbol.asyncIterator]();
    await lines.next();
    if (after > 0) await pause(after);
    socket.write(`${STATUS}\n`);
    await talk(socket, lines);
    socket.end();
  });
  server.listen(0, "127.0.0.1");
  await once(server, "listening");
  try {
    await work(server.address().port);
  } finally {
    server.close();
    for (const socket of sockets) socket.destroy();
  }
}

/** Waits for so many lines, or for the end of them. */
export async function asked(lines, count = Infinity) {
  for (let left = count; left > 0; left -= 1) if ((await lines.next()).done) return;
}

/** A program that answers as a shell script says, in whatever words it is run. */
export function programOf(folder, script) {
  const name = join(folder, "program");
  writeFileSync(name, `#!/bin/sh\n${script}\n`);
  chmodSync(name, 0o700);
  return name;
}

export function pause(milliseconds) {
  return new Promise((done) => setTimeout(done, milliseconds));
}

/** What a promise gives, or a failure if it waits: a test ends by itself. */
export async function soon(promise, milliseconds = 10_000) {
  let timer;
  const late = new Promise((_, reject) => (timer = setTimeout(() => reject(new Error("it waits for ever")), milliseconds)));
  try {
    return await Promise.race([promise, late]);
  } finally {
    clearTimeout(timer);
  }
}
