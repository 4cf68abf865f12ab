// A line that a connection took along when it ended: the daemon reads it later than what came over the next connection, and makes it then.

import assert from "node:assert/strict";
import { test } from "node:test";

import { Session, connect } from "peritext";
import { bind } from "peritext/quill";

import { Store } from "./fake.mjs";
import { Quill } from "./quill.mjs";
import { soon, withTalk } from "./talk.mjs";

const NEVER = 2 ** 32 - 1;

/**
 * Runs a test with an editor at a daemon of one store. The first line with a token ends its connection unread. Somebody types more while that
 * is asked for over the next one. It is read right before the line that has its token for the `number`th time there is answered.
 */
function withLateLine(number, work) {
  const store = new Store();
  const quill = new Quill();
  const asked = [];
  let late;
  const talk = async (socket, lines) => {
    for await (const line of { [Symbol.asyncIterator]: () => lines }) {
      const request = JSON.parse(line);
      if (request.token !== undefined && late === undefined) {
        late = line;
        return;
      }
      if (request.token !== undefined && request.token === JSON.parse(late).token) {
        asked.push(request);
        if (asked.length === 1) quill.insertText(2, "y", {}, "user");
        if (asked.length === number) store.answer(late);
      }
      socket.write(`${store.answer(line)}\n`);
    }
  };
  return withTalk(talk, async (port) => {
    const somebody = new Session(store.session()).document(1);
    await somebody.insert(0, "ab");
    const session = await connect(port);
    const errors = [];
    const binding = await bind(quill, session.document(1), { onError: (error) => errors.push(error) });
    quill.insertText(1, "x", {}, "user");
    await soon(binding.settled());
    await work({ asked, binding, quill, somebody });
    assert.deepEqual(errors, []);
    binding.close();
    await session.close();
  });
}

for (const number of [1, 2, 3]) {
  test(`what is read late is there once, with what was typed meanwhile: before ask ${number} for it is answered`, () =>
    withLateLine(number, async ({ asked, binding, quill, somebody }) => {
      assert.equal(await somebody.text(), "axyb");
      assert.equal(quill.getText(), "axyb\n");
      assert.equal(binding.waiting, 0);
      // It is asked for under a `rev` that no document has, and goes again as it was.
      assert.equal(asked[0].rev, NEVER);
      assert(asked.every(({ op, text }) => op === "insert" && text === "x"));
    }));
}

test("what was refused over the next connection and read late is there once beside what others do then", () =>
  withLateLine(2, async ({ binding, quill, somebody }) => {
    await somebody.insert(0, "> ");
    await soon(binding.pull());
    quill.insertText(6, "z", {}, "user");
    await soon(binding.settled());
    assert.equal(await somebody.text(), "> axybz");
    assert.equal(quill.getText(), "> axybz\n");
  }));
