// The demo without a browser: its command, its daemons, and what it says where it can't be shown.

import assert from "node:assert/strict";
import { spawn } from "node:child_process";
import { once } from "node:events";
import { writeFileSync } from "node:fs";
import { join } from "node:path";
import { fileURLToPath } from "node:url";

import { connect } from "../../js/src/node.js";
import { PROGRAM, newDemo, newFolder } from "./support.mjs";
import { starts, test } from "./timed.mjs";

const MAIN = fileURLToPath(new URL("../src/main.js", import.meta.url));

/** The command, until it has printed the address or has ended. */
async function command(folder, environment = {}) {
  const child = spawn(process.execPath, [MAIN, folder], { env: { ...process.env, PERITEXT: PROGRAM, ...environment } });
  let said = "";
  const ended = once(child, "close").then(([status]) => status);
  // It ends its daemons itself.
  const end = () => child.kill("SIGTERM");
  starts(() => end() && ended, end);
  const printed = new Promise((done) => {
    for (const stream of [child.stdout, child.stderr]) {
      stream.setEncoding("utf8").on("data", (part) => {
        said += part;
        if (/http:\S+/.test(said)) done();
      });
    }
  });
  await Promise.race([printed, ended]);
  return { child, ended, said: () => said, address: /http:\S+/.exec(said)?.[0] };
}

test("Ctrl-C stops both daemons, and their files are kept", async () => {
  const folder = newFolder();
  for (const [round, how] of ["new", "kept from before"].entries()) {
    const demo = await command(folder);
    assert(demo.said().includes(`(${how})`), demo.said());
    assert.equal((await fetch(demo.address)).status, 200);
    demo.child.kill(round === 0 ? "SIGINT" : "SIGTERM");
    assert.equal(await demo.ended, 0);
    assert.match(demo.said(), /Both daemons have stopped/);
  }
});

test("a second demo over the same files says why it isn't shown, and leaves the first", async () => {
  const folder = newFolder();
  const first = await command(folder);
  const second = await command(folder);
  assert.equal(await second.ended, 1);
  assert.match(second.said(), /54 open failed.*another program has it open/);
  assert.equal((await fetch(first.address)).status, 200);
  first.child.kill("SIGINT");
  assert.equal(await first.ended, 0);
});

test("what isn't there is named", async () => {
  const folder = newFolder();
  const demo = await command(folder, { PERITEXT: join(folder, "no-program") });
  assert.equal(await demo.ended, 1);
  assert.match(demo.said(), /make peritext/);
  writeFileSync(join(folder, "alice"), "no store");
  const other = await command(folder);
  assert.equal(await other.ended, 1);
  assert.match(other.said(), /42 no root: the file isn't a store/);
});

test("a daemon that is killed is started on other ports, and has what was answered", async () => {
  const folder = newFolder();
  const demo = newDemo();
  await demo.start();
  const daemon = demo.daemon("bob");
  const session = await connect(daemon.ports.sessions);
  assert.equal(await session.document(1).insert(0, "x"), 1);
  daemon.kill();
  await session.close();
  while (daemon.state !== "ended") await new Promise((done) => setTimeout(done, 10));
  assert.equal(daemon.fault, "killed");
  // As by two clicks.
  await Promise.all([daemon.start(), daemon.start()]);
  const again = await connect(daemon.ports.sessions);
  assert.equal(await again.document(1).text(), "x");
  await again.stop();
  await again.close();
  while (daemon.state !== "ended") await new Promise((done) => setTimeout(done, 10));
  assert.equal(daemon.fault, "stopped");
});
