// A small peritext in memory, for tests: what it answers, and transports to it. `model.mjs` is a document of it.

import { Model } from "./model.mjs";

const TOKEN = /^(?!0{8}-0{4}-0{4}-0{4}-0{12}$)[0-9a-f]{8}(-[0-9a-f]{4}){3}-[0-9a-f]{12}$/;
const WORDS = { 2: "syntax", 3: "request", 4: "field", 5: "range", 6: "stale", 7: "limit", 12: "stopping" };
const READS = new Set(["text", "spans", "versions", "changes", "find", "export"]);
const EDITS = new Set(["insert", "delete", "mark", "unmark"]);
/** The replica of all stores. */
const WRITER = "00000000-0000-4000-8000-000000000001";
const LIMITS = { bytes_limit: 2 ** 30, documents_limit: 1_024, operations_limit: 2 ** 24, replicas_limit: 16, steps_limit: 2 ** 20 };
/** The greatest number of a request. */
const GREATEST = 2 ** 32 - 1;
/** How many edits are made at once. */
const MANY = 1_024;

export class Store {
  #documents = new Map();
  /** What each edit with a token was answered. */
  #tokens = new Map();
  #watchers = new Set();

  /** A transport of a session of its own over this store. While it is `held`, nothing is answered. */
  session() {
    return new FakeTransport((line) => this.answer(line));
  }

  /** A transport of a watch over this store. While it is `held`, it tells nothing. */
  watcher() {
    const watcher = new FakeWatcher((number) => this.document(number).rev, () => this.#edited());
    this.#watchers.add(watcher);
    return watcher;
  }

  /** The document of a number. */
  document(number) {
    const document = this.#documents.get(number) ?? new Model();
    this.#documents.set(number, document);
    return document;
  }

  /** The documents that were edited, by their numbers. */
  #edited() {
    return [...this.#documents].filter(([, { rev }]) => rev > 0).sort(([one], [other]) => one - other);
  }

  /** The file is opened anew: changes are told from now on, or from 0. Whoever does so cuts the sessions. */
  openAnew() {
    for (const document of this.#documents.values()) document.forget();
  }

  /** The answer to a line. */
  answer(line) {
    let request;
    try {
      request = JSON.parse(line);
    } catch {
      return refusal(2);
    }
    const answer = this.#done(request);
    setImmediate(() => this.#watchers.forEach((watcher) => watcher.tell()));
    if (typeof answer === "number" || answer.code !== undefined) return refusal(answer.code ?? answer, answer.at);
    return JSON.stringify({ ok: true, ...answer });
  }

  #done(request) {
    const { op, doc, rev, token } = request;
    if (op === "status") return { applied: 0, settled: 0, state: "open" };
    if (op === "stop") return {};
    if (op === "documents") return Object.keys(request).length > 1 ? 4 : { documents: this.#edited().map(([number, document]) => counted(number, document)) };
    if (op === "room") return Object.keys(request).length > 1 ? 4 : room(this.#edited().map(([, document]) => document));
    if (!READS.has(op) && !EDITS.has(op) && op !== "edits") return 3;
    if (!Number.isInteger(doc) || doc < 1) return 4;
    if (op === "edits" && !areEdits(request.edits)) return 4;
    if (token !== undefined && (READS.has(op) || !TOKEN.test(token))) return 4;
    if (this.#tokens.has(token)) return { rev: this.#tokens.get(token) };
    const document = this.document(doc);
    if (op === "versions") return Number.isInteger(request.every) && request.every > 0 && request.every <= GREATEST ? { rev: document.rev, versions: versions(document, request.every) } : 4;
    if (!READS.has(op) && rev !== undefined && rev !== document.rev) return 6;
    const told = op === "edits" ? made(document, request) : document[op](request);
    if (typeof told === "number" || told?.code !== undefined) return told;
    if (token !== undefined) this.#tokens.set(token, document.rev);
    return { rev: document.rev, ...told };
  }
}

/** What is counted of a document. */
function counted(doc, document) {
  return { chars: document.at(document.rev).length, doc, ops: document.rev, writers: [WRITER] };
}

/** The versions of a document that one replica has made. */
function versions({ rev }, every) {
  const begun = [...Array(Math.ceil(rev / every)).keys()].map((number) => number * every);
  return begun.map((before) => ({ ops: Math.min(every, rev - before), replica: WRITER, rev: Math.min(before + every, rev) }));
}

/** Not as the program counts it: each operation takes as many bytes, and is a step. */
function room(documents) {
  const operations = documents.reduce((sum, { rev }) => sum + rev, 0);
  const [has, replicas] = [documents.length, documents.length > 0 ? 1 : 0];
  return { bytes: 63 * operations, documents: has, operations, replicas, steps: operations, ...LIMITS };
}

class FakeTransport {
  /** Set to keep answers back. */
  held = false;
  /** How many lines were answered. */
  answered = 0;
  #answer;
  #lines = [];
  #closed = false;
  /** Whether it has told its end. */
  hasEnded = false;

  constructor(answer) {
    this.#answer = answer;
  }

  send(line) {
    this.#lines.push(line);
    setImmediate(() => this.#go());
  }

  close() {
    this.#closed = true;
    setImmediate(() => this.#go());
  }

  release() {
    this.held = false;
    this.#go();
  }

  /** Answers so many of the lines that it holds, and holds on. */
  pass(count) {
    for (let left = count; left > 0 && this.#answer !== undefined && this.#lines.length > 0; left -= 1) this.#give();
  }

  /** Ends a little later, without an answer to what it holds, of which so many lines are made. */
  cut(made) {
    for (const line of this.#lines.splice(0).slice(0, made)) this.#answer(line);
    this.#answer = undefined;
    setImmediate(() => this.#go());
  }

  #give() {
    this.answered += 1;
    this.onLine(this.#answer(this.#lines.shift()));
  }

  #go() {
    if (this.onEnd === undefined || this.hasEnded) return;
    while (this.#answer !== undefined && !this.held && this.#lines.length > 0) this.#give();
    if (this.#answer !== undefined && !(this.#closed && this.#lines.length === 0)) return;
    this.hasEnded = true;
    this.onEnd();
  }
}

class FakeWatcher {
  /** Set to keep numbers back. */
  held = false;
  /** How many numbers were told. */
  count = 0;
  #revOf;
  #edited;
  #request;
  #told = new Map();
  /** Whether it has ended. */
  isOver = false;

  constructor(revOf, edited) {
    this.#revOf = revOf;
    this.#edited = edited;
  }

  send(line) {
    this.#request = JSON.parse(line);
    setImmediate(() => this.tell());
  }

  /** Says how many operations there are of each document, if that wasn't said. */
  tell() {
    if (this.isOver || this.held || this.#request === undefined) return;
    const { doc, docs } = this.#request;
    const numbers = docs === "all" ? this.#edited().map(([number]) => number) : (docs ?? [doc]);
    for (const number of numbers) {
      const rev = this.#revOf(number);
      if (rev === this.#told.get(number)) continue;
      this.#told.set(number, rev);
      this.count += 1;
      this.onLine(JSON.stringify({ doc: docs && number, ok: true, rev }));
    }
  }

  release() {
    this.held = false;
    this.tell();
  }

  /** Ends a little later. */
  close() {
    if (this.isOver) return;
    this.isOver = true;
    setImmediate(() => this.onEnd());
  }
}

function areEdits(edits) {
  const isOne = (edit) => EDITS.has(edit?.op) && ["doc", "rev", "token"].every((name) => edit[name] === undefined);
  return Array.isArray(edits) && edits.length >= 1 && edits.length <= MANY && edits.every(isOne);
}

/** Makes several edits of a document, or none, and gives the refusal. */
function made(document, { edits }) {
  const before = document.kept();
  const codes = edits.map((edit) => document[edit.op](edit));
  const at = codes.findIndex((code) => code !== undefined);
  if (at < 0) return undefined;
  document.putBack(before);
  return codes.find((code) => code === 2) ?? codes.find((code) => code === 4) ?? { code: codes[at], at: edits.length > 1 ? at : undefined };
}

function refusal(code, at) {
  return JSON.stringify({ at, code, error: WORDS[code], ok: false });
}
