// What somebody types as the address of a link.

import assert from "node:assert/strict";

import { addressOf, isLink } from "../page/address.js";
import { test } from "./timed.mjs";

test("an address without a scheme is a page's, or somebody's mail", () => {
  const typed = {
    "example.org": "https://example.org",
    " www.example.org/a?b#c ": "https://www.example.org/a?b#c",
    "example.org:8080/x": "https://example.org:8080/x",
    "localhost:8080": "https://localhost:8080",
    "127.0.0.1/x": "https://127.0.0.1/x",
    "bücher.example": "https://bücher.example",
    "someone@example.org": "mailto:someone@example.org",
  };
  for (const [text, address] of Object.entries(typed)) assert.equal(addressOf(text), address);
});

test("a whole address is taken as it is", () => {
  for (const address of ["https://example.org/", "HTTP://example.org", "http://localhost:80/x", "mailto:a@example.org?subject=b"]) {
    assert.equal(addressOf(address), address);
    assert(isLink(address));
  }
});

/** What could run a script, or reach this machine's files. */
const UNSAFE = ["javascript:alert(1)", "JavaScript:alert(1)", "\u0001javascript:alert(1)", "java\tscript:alert(1)", "data:text/html,x", "vbscript:x", "file:///x"];

const RELATIVE = ["/x", "./x.html", "#x", "?x", "//example.org"];
const BROKEN = ["", " ", "nowhere", "https://", "https://a b.example", "a b.example", "tel:112", `example.org/${"x".repeat(1_024)}`];

test("scripts, relative addresses and bare words aren't taken", () => {
  for (const address of UNSAFE) assert(!isLink(address), address);
  for (const text of [...UNSAFE, ...RELATIVE, ...BROKEN]) assert.equal(addressOf(text), undefined, text);
});
