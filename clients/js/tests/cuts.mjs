// Answers that are cut, or are none: all who wait are told, and nobody is told a wrong thing.

import assert from "node:assert/strict";
import { once } from "node:events";
import { createServer } from "node:net";
import { test } from "node:test";

import { Ended, NoDaemon, Refused, Session, connect, open } from "peritext";

import { Store } from "./fake.mjs";
import { withFile } from "./support.mjs";
import { STATUS, asked, programOf, soon, withTalk } from "./talk.mjs";

/** Requests, and a typical answer to each. */
const EXCHANGES = {
  "a text": [{ op: "text", doc: 1 }, '{"ok":true,"rev":12,"text":"The \\"quick\\" ä🦊\\n"}'],
  spans: [{ op: "spans", doc: 1 }, '{"ok":true,"rev":12,"spans":[{"link":"u","text":"ä"},{"strong":true,"text":"b"}]}'],
  changes: [{ op: "changes", doc: 1, since: 3 }, '{"changes":[{"retain":3},{"attributes":{"em":true},"insert":"ä"}],"ok":true,"rev":12}'],
  anchors: [{ op: "anchors", doc: 1, at: [0, 3], side: "previous" }, '{"anchors":["start","a3@UUID"],"ok":true,"rev":12}'],
  places: [{ op: "places", doc: 1, anchors: ["start", "end"] }, '{"ok":true,"places":[0,null],"rev":12}'],
  "an edit": [{ op: "insert", doc: 1, at: 0, text: "x" }, '{"ok":true,"rev":12}'],
  "a refusal": [{ op: "insert", doc: 1, at: 9, text: "x" }, '{"code":5,"error":"range","ok":false}'],
  "a status": [{ op: "status" }, '{"applied":12,"ok":true,"settled":12,"state":"open"}'],
  peers: [{ op: "peers" }, '{"ok":true,"peers":[{"has":12,"lacks":0,"replica":"00000000-0000-4000-8000-000000000002"}],"sessions":3}'],
  documents: [{ op: "documents" }, '{"documents":[{"chars":3,"doc":3,"ops":7,"writers":["0f5d2c4e-9a1b-4c3d-8e7f-112233445566"]}],"ok":true}'],
  room: [
    { op: "room" },
    '{"bytes":614,"bytes_limit":1073741824,"documents":2,"documents_limit":1024,"ok":true,"operations":8,"operations_limit":16777216,' +
      '"replicas":1,"replicas_limit":16,"steps":6,"steps_limit":1048576}',
  ],
};
const TEXT = { op: "text", doc: 1 };

/** What is no answer to a request for a text. */
const WRONG = [
  "",
  "null",
  "[]",
  "7",
  '"ok"',
  '{"rev":12,"text":"a"}',
  '{"ok":1,"rev":12,"text":"a"}',
  '{"ok":false}',
  '{"ok":false,"code":5}',
  '{"ok":false,"error":"range"}',
  '{"ok":false,"code":"5","error":"range"}',
  '{"ok":false,"code":true,"error":"range"}',
  '{"ok":false,"code":5,"error":["range"]}',
  '{"ok":true}',
  '{"ok":true,"rev":12}',
  '{"ok":true,"rev":"12","text":"a"}',
  '{"ok":true,"rev":12,"text":7}',
  "peritext: 9 failed",
  "[".repeat(100_000),
];

async function assertEnded(answers) {
  for (const answer of answers) {
    const fault = await soon(answer.then(() => undefined, (error) => error));
    assert(fault instanceof Ended, String(fault));
    assert.match(fault.message, /ended before this request was answered \(.+\): begin another one/);
    assert.equal(fault.wasSent, true);
  }
}

/** Whether a promise gives the answer of a line, or its refusal. */
async function assertTold(answer, line) {
  const wanted = JSON.parse(line);
  if (wanted.ok) assert.deepEqual(await soon(answer), wanted);
  else await assert.rejects(soon(answer), (error) => error instanceof Refused && error.number === wanted.code && error.word === wanted.error);
}

for (const [name, [fields, line]] of Object.entries(EXCHANGES)) {
  test(`${name}, cut at each byte`, async () => {
    const whole = Buffer.from(`${line}\n`);
    let cut = -1;
    const talk = async (socket, lines) => {
      await asked(lines, 3);
      socket.write(Buffer.concat([whole, whole.subarray(0, cut)]));
    };
    await withTalk(talk, async (port) => {
      for (cut = 0; cut < whole.length; cut += 1) {
        const session = await connect(port, { retry: null });
        const [first, ...others] = [1, 2, 3].map(() => session.send(fields));
        others.forEach((answer) => answer.catch(() => {}));
        await assertTold(first, line);
        await assertEnded(others);
        await assert.rejects(session.send(fields), Ended);
        await soon(session.close());
      }
    });
  });
}

test("the first answer of a session that is cut", async () => {
  for (const cut of [0, 1, 20, STATUS.length]) {
    const server = async (socket) => socket.write(STATUS.slice(0, cut));
    await withBare(server, (port) => assert.rejects(soon(connect(port)), NoDaemon));
  }
});

/** A server that greets nobody. */
async function withBare(say, work) {
  const server = createServer((socket) => {
    socket.on("error", () => {});
    say(socket);
    socket.end();
  }).listen(0, "127.0.0.1");
  await once(server, "listening");
  await work(server.address().port);
  server.close();
}

test("lines that are no answers end the session, with words", async () => {
  for (const line of WRONG) {
    const transport = new Store().session();
    transport.held = true;
    const session = new Session(transport);
    const answers = [1, 2, 3].map(() => session.send(TEXT));
    answers.forEach((answer) => answer.catch(() => {}));
    transport.onLine(line);
    transport.onLine('{"ok":true,"rev":12,"text":"late"}');
    await assertEnded(answers);
    await assert.rejects(session.send(TEXT), Ended);
  }
});

test("the words say what was wrong", async () => {
  const transport = new Store().session();
  transport.held = true;
  const answer = new Session(transport).send(TEXT);
  transport.onLine('{"ok":false}');
  await assert.rejects(answer, { name: "Ended", message: /an answer came without a right `code`/ });
});

test("a connection of which nothing can be told apart is ended by the client", async () => {
  let end;
  const ended = new Promise((done) => (end = done));
  const talk = async (socket, lines) => {
    socket.on("end", end);
    await asked(lines, 1);
    socket.write('{"ok":false}\n');
    await ended;
  };
  await withTalk(talk, async (port) => {
    const session = await connect(port, { retry: null });
    await assertEnded([session.send(TEXT)]);
    await soon(ended);
    await soon(session.close());
  });
});

test("a program of its own that says something else is ended", () =>
  withFile(async (_, folder) => {
    const program = programOf(folder, `read a; echo '${STATUS}'; read b; echo no; exec sleep 60`);
    const session = await open("file", { program });
    await assertEnded([session.send(TEXT)]);
    await assert.rejects(soon(session.close()), { name: "Ended", message: /no JSON object/ });
  }));

test("a program of its own that ends in the middle of an answer", () =>
  withFile(async (_, folder) => {
    const program = programOf(folder, `read a; echo '${STATUS}'; read b; printf '%s' '{"ok":true,"rev":12'`);
    const session = await open("file", { program });
    await assertEnded([session.send(TEXT)]);
    await soon(session.close());
  }));

test("a request that can't be sent takes no other's answer", async () => {
  const session = new Session(new Store().session());
  await assert.rejects(session.send({ op: "text", doc: 1n }), TypeError);
  assert.deepEqual(await session.send({ op: "insert", doc: 1, at: 0, text: "x" }), { ok: true, rev: 1 });
  const transport = new Store().session();
  const other = new Session(transport);
  transport.send = () => {
    throw new Error("no way");
  };
  await assert.rejects(other.send(TEXT), { name: "Ended", message: /sending failed: Error: no way/ });
});
