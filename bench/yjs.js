// The same edits in Yjs, in memory: for bench/edits.py, bench/typed.py and bench/changes.py. Prints seconds, and the length of the text at the end.
//
// Debian's node-yjs is found with NODE_PATH=/usr/share/nodejs.
//
// node bench/yjs.js edits COUNT PLACE EDITS     inserts of one character into a text of COUNT characters
// node bench/yjs.js pastes COUNT PLACE EDITS    inserts of 256 characters, each deleted again
// node bench/yjs.js merges COUNT PLACE EDITS    the first case's updates, applied one by one by another replica; PLACE may be `three`
// node bench/yjs.js lines FILE                  edits as session lines
// node bench/yjs.js changes COUNT MARKS PLACES EDITS    updates of a character at each of so many places of a text with so many marks
//                                                       over 50 characters each, applied, and the delta of each asked for
"use strict";

const fs = require("fs");
const Y = require("yjs");

const PASTED = 256;

// A replica with the updates that it makes from now on.
function replica(first) {
  const doc = new Y.Doc();
  if (first) Y.applyUpdate(doc, first);
  const updates = [];
  doc.on("update", (update) => updates.push(update));
  return { doc, text: doc.getText("text"), updates };
}

// A text typed in pieces of 256 characters.
function typed(count) {
  const made = replica();
  for (let at = 0; at < count; at += PASTED) made.text.insert(at, "x".repeat(Math.min(PASTED, count - at)));
  made.updates.length = 0;
  return made;
}

// Where the edit of this number goes in a text of so many characters.
function where(place, number, long) {
  const spread = Math.imul(number, -1640531535) >>> 0;
  return place === "end" ? long : place === "front" ? 0 : spread % Math.max(1, long);
}

function timed(work) {
  const started = process.hrtime.bigint();
  work();
  return Number(process.hrtime.bigint() - started) / 1e9;
}

function tell(seconds, text) {
  console.log(`${seconds} ${text.length}`);
}

function edits(count, place, many) {
  const { text } = typed(count);
  tell(timed(() => {
    for (let n = 0; n < many; n++) text.insert(where(place, n, count + n), "y");
  }), text);
}

function pastes(count, place, many) {
  const { text } = typed(count);
  const piece = "y".repeat(PASTED);
  tell(timed(() => {
    for (let n = 0; n < many; n++) {
      const start = where(place, n, count);
      text.insert(start, piece);
      text.delete(start, PASTED);
    }
  }), text);
}

// The updates of one replica, or of three that type at distant places, in turn.
function updates(base, count, place, many) {
  const first = Y.encodeStateAsUpdate(base.doc);
  if (place !== "three") {
    const one = replica(first);
    for (let n = 0; n < many; n++) one.text.insert(where(place, n, count + n), "y");
    return one.updates;
  }
  const three = [1, 2, 3].map((quarter) => {
    const one = replica(first);
    const start = Math.floor((count * quarter) / 4);
    for (let n = 0; n < Math.floor(many / 3); n++) one.text.insert(start + n, "y");
    return one.updates;
  });
  return three[0].flatMap((update, n) => [update, three[1][n], three[2][n]]);
}

function merges(count, place, many) {
  const base = typed(count);
  const made = updates(base, count, place, many);
  tell(timed(() => {
    for (const update of made) Y.applyUpdate(base.doc, update);
  }), base.text);
}

// A text with marks over 50 characters each, at random places.
function marked(count, marks) {
  const made = typed(count);
  for (let n = 0; n < marks; n++) made.text.format(where("random", n, count - 50), 50, { strong: true });
  return made;
}

function changes(count, marks, places, many) {
  const base = marked(count, marks);
  const other = replica(Y.encodeStateAsUpdate(base.doc));
  for (let n = 0; n < many; n++) {
    other.doc.transact(() => {
      for (let place = 0; place < places; place++) other.text.insert(where("random", n * places + place, count), "y");
    });
  }
  let steps = 0;
  base.text.observe((event) => {
    steps += event.delta.length;
  });
  const seconds = timed(() => {
    for (const update of other.updates) Y.applyUpdate(base.doc, update);
  });
  if (steps < many) throw new Error("no deltas");
  tell(seconds, base.text);
}

function lines(file) {
  const asked = fs.readFileSync(file, "utf8").trim().split("\n").map((line) => JSON.parse(line));
  const { text } = replica();
  tell(timed(() => {
    for (const edit of asked) {
      if (edit.op === "insert") text.insert(edit.at, edit.text);
      else text.delete(edit.at, edit.count);
    }
  }), text);
}

const [what, ...words] = process.argv.slice(2);
if (what === "lines") lines(words[0]);
else if (what === "changes") changes(...words.map(Number));
else ({ edits, pastes, merges })[what](Number(words[0]), words[1], Number(words[2]));
