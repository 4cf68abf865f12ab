// A stand-in for the request `find`, where the daemons of a page don't know it: the page's sessions ask for the text in its place, and look there.

import { Refused } from "../../js/src/node.js";

/** Runs in the page before its scripts: what is sent as `find` is a `text`, and its answer is made one of `find`. */
function standIn() {
  const found = (text, sought, from) => {
    const [all, parts] = [[...text], [...sought]];
    const places = [];
    for (let at = from; at + parts.length <= all.length && places.length < 1_024; at += 1) if (parts.every((part, index) => all[at + index] === part)) places.push(at);
    return places;
  };
  window.WebSocket = class extends WebSocket {
    #asked = [];
    send(line) {
      // The demo's own commands are words.
      const request = line.startsWith("{") ? JSON.parse(line) : {};
      this.#asked.push(request);
      super.send(request.op === "find" ? JSON.stringify({ op: "text", doc: request.doc }) : line);
    }
    set onmessage(take) {
      super.onmessage = take && (({ data }) => take({ data: this.#answer(data) }));
    }
    #answer(data) {
      const { op, text: sought, from } = this.#asked.shift() ?? {};
      const told = JSON.parse(data);
      return op === "find" && told.ok ? JSON.stringify({ ok: true, places: found(told.text, sought, from), rev: told.rev }) : data;
    }
  };
}

/** Runs in the page before its scripts: `find` is refused, as by an earlier daemon. */
function refuse() {
  window.WebSocket = class extends WebSocket {
    send(line) {
      super.send(line.replace('"op":"find"', '"op":"unknown"'));
    }
  };
}

/** Has the page find, by its daemons if they do. */
export async function finds(page) {
  const session = await page.session("alice");
  const error = await session.document(1).find("x").catch((fault) => fault);
  await session.close();
  if (!(error instanceof Refused)) return;
  if (error.number !== 3) throw error;
  await before(page, standIn);
}

export function refusesToFind(page) {
  return before(page, refuse);
}

async function before(page, script) {
  await page.browser.before(`(${script})()`);
  await page.browser.reload();
  await page.isRead();
}
