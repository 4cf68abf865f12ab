// The server of the page, and the relay over plain servers in place of daemons.

import assert from "node:assert/strict";
import { once } from "node:events";
import { request } from "node:http";
import { createConnection, createServer } from "node:net";

import { Files } from "../src/files.js";
import { webSockets } from "../src/packages.js";
import { PageServer } from "../src/page_server.js";
import { Relay } from "../src/relay.js";
import { test } from "./timed.mjs";

const { WebSocket } = webSockets();

async function listening(take) {
  const server = createServer({ noDelay: true }, take).listen(0, "127.0.0.1");
  await once(server, "listening");
  return { port: server.address().port, close: () => server.close() };
}

/** Runs a test over a server of the page. */
async function withServer(work) {
  const server = new PageServer({ files: new Files(), doors: { control: () => {}, presence: () => {} } });
  await server.listen();
  const { address } = server;
  try {
    await work({ address, web: (path, headers) => webTo(address, path, headers) });
  } finally {
    server.close();
  }
}

function webTo(address, path, headers = { Origin: address.slice(0, -1) }) {
  const web = new WebSocket(address.replace("http", "ws") + path, { headers });
  web.on("error", () => {});
  return web;
}

/** The status with which a WebSocket is refused. */
async function refusal(web) {
  const [, response] = await once(web, "unexpected-response");
  web.terminate();
  return response.statusCode;
}

async function got(address, path, options = {}) {
  const asked = request(address, { path, ...options });
  asked.end();
  const [response] = await once(asked, "response");
  let text = "";
  for await (const part of response.setEncoding("utf8")) text += part;
  return { status: response.statusCode, text, headers: response.headers };
}

test("the page and its modules are served, and nothing else", () =>
  withServer(async ({ address }) => {
    const page = await got(address, "/");
    assert.equal(page.status, 200);
    const { imports } = JSON.parse(/<script type="importmap">(.*)<\/script>/.exec(page.text)[1]);
    for (const path of [...Object.values(imports), "/main.js", "/style.css", "/prosemirror.css"]) {
      assert.equal((await got(address, path)).status, 200, path);
    }
    for (const path of ["/../package.json", "/%2e%2e/package.json", "//etc/passwd", "/client/../../../README.md", "/main.js?x", "/control"]) {
      assert.equal((await got(address, path)).status, 404, path);
    }
    assert.equal((await got(address, "/", { method: "POST" })).status, 405);
    assert.match(page.headers["content-security-policy"], /frame-ancestors 'none'/);
  }));

test("other names and other origins are refused", () =>
  withServer(async ({ address, web }) => {
    const { port } = new URL(address);
    assert.equal((await got(address, "/", { headers: { Host: `example.org:${port}` } })).status, 403);
    assert.equal((await got(address, "/", { headers: { Host: `localhost:${port}` } })).status, 200);
    const origins = [{}, { Origin: "null" }, { Origin: "http://example.org" }, { Origin: `https://127.0.0.1:${port}` }];
    for (const headers of [...origins, { Origin: address.slice(0, -1), Host: "example.org" }]) {
      assert.equal(await refusal(web("control", headers)), 403);
    }
    assert.equal(await refusal(web("session")), 404);
  }));

test("the 65th WebSocket is refused", () =>
  withServer(async ({ web }) => {
    const held = [...Array(64)].map(() => web("control"));
    await Promise.all(held.map((one) => once(one, "open")));
    assert.equal(await refusal(web("control")), 503);
    for (const one of held) one.terminate();
  }));

test("a relay carries, is cut, and carries again", async () => {
  const server = await listening((socket) => {
    socket.on("error", () => {});
    socket.pipe(socket);
  });
  const states = [];
  let port;
  const relay = new Relay(() => port, () => states.push(relay.state));
  const through = await relay.listen();
  const ended = async () => {
    const socket = createConnection(through, "127.0.0.1").on("error", () => {});
    await once(socket, "close");
  };
  const linked = async () => {
    const socket = createConnection(through, "127.0.0.1").on("error", () => {});
    socket.write("hello");
    assert.equal(String((await once(socket, "data"))[0]), "hello");
    assert.equal(relay.state, "linked");
    return socket;
  };
  await ended();
  assert.equal(relay.state, "joining");
  port = server.port;
  const one = await linked();
  relay.part();
  await once(one, "close");
  assert.equal(relay.state, "parted");
  await ended();
  relay.join();
  assert.equal(relay.state, "joining");
  const other = await linked();
  other.destroy();
  relay.close();
  server.close();
  assert.deepEqual(states.filter((state, index) => state !== states[index - 1]).slice(0, 4), ["joining", "linked", "parted", "joining"]);
});
