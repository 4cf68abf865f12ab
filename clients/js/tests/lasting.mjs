// Sessions over a store in memory, some of which go on over further transports.

import assert from "node:assert/strict";

import { Session } from "peritext";

import { Store } from "./fake.mjs";
import { pause } from "./talk.mjs";

export const REASON = new Error("given up");

/** A transport over a store, and the lines that are sent over it. */
export function listened(store) {
  const transport = store.session();
  const sent = [];
  const { send } = transport;
  transport.send = (line) => {
    sent.push(JSON.parse(line));
    send.call(transport, line);
  };
  return { transport, sent };
}

/** A session over a store. It goes on over the transports that `again` promises. */
export function over(store = new Store(), options = {}) {
  const { transport, sent } = listened(store);
  return { store, transport, sent, session: new Session(transport, options), controller: new AbortController() };
}

/** A session whose further transports are listened to as well, once they are let in. */
export function lasting({ isThere = true, retry = 2_000 } = {}) {
  const it = over(new Store(), { retry, again: async () => it.next() });
  it.isThere = isThere;
  it.next = () => {
    if (!it.isThere) throw new Error("nobody is there");
    const { transport, sent } = listened(it.store);
    it.transport = transport;
    it.later = sent;
    return transport;
  };
  return it;
}

/** Ends a session's transport, and waits until the session knows. */
export async function part(it) {
  const { parted } = it.session;
  it.transport.cut(0);
  await until(() => it.session.parted > parted);
}

export async function until(holds) {
  for (const end = performance.now() + 10_000; !holds() && performance.now() < end; ) await pause(5);
  assert(holds());
}
