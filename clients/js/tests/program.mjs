#!/usr/bin/env node
// A program with the words of peritext, `init FILE --replica UUID` and `edit FILE`, over a store in memory: its file says
// only that it was made.

import { readFileSync, writeFileSync } from "node:fs";

import { Store } from "./fake.mjs";

const [word, file, option, replica] = process.argv.slice(2);

if (word === "init" && option === "--replica") {
  if (content() !== "") refuse(48, "not empty");
  writeFileSync(file, `${replica}\n`);
  process.stdout.write('{"ok":true}\n');
} else if (word === "edit") {
  if (content() === "") refuse(54, "open failed");
  const store = new Store();
  let rest = "";
  process.stdin.setEncoding("utf8").on("data", (chunk) => {
    const lines = (rest + chunk).split("\n");
    rest = lines.pop();
    for (const line of lines) process.stdout.write(`${store.answer(line)}\n`);
  });
} else {
  process.exit(2);
}

function content() {
  try {
    return readFileSync(file, "utf8");
  } catch {
    return "";
  }
}

function refuse(number, word) {
  process.stderr.write(`peritext: ${number} ${word}\n`);
  process.exit(1);
}
