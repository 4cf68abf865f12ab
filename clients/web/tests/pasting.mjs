// What is pasted from other pages: its words stay apart, and its marks stay.

import assert from "node:assert/strict";

import { withPage } from "./page.mjs";
import { SOURCES } from "./pasted.mjs";
import { test } from "./timed.mjs";

const BACKSPACE = "\uE003";

/** What other pages have, and the lines that it becomes. */
const PASTED = [
  ["<h1>Title</h1><p>text</p><div>more</div>rest", "Title\ntext\nmore\nrest"],
  ["<ul>\n  <li>one</li>\n  <li>two<ol><li>inner</li></ol>after</li>\n</ul>", "one\ntwo\ninner\nafter"],
  ["<table><thead><tr><th>a</th><th>b</th></tr></thead><tbody><tr><td>c</td><td><p>d</p></td></tr></tbody></table>", "a\nb\nc\nd"],
  ["<td>cell</td><td>beside</td>", "cell\nbeside"],
  ["one<br>two<br><br>three<br>", "one\ntwo\n\nthree"],
  ["<p>one<br>two</p><p><br></p><p>three</p><br class='Apple-interchange-newline'>", "one\ntwo\n\nthree"],
  ["<pre>if so:\n    this\n\n<b>that</b></pre><p>so</p>", "if so:\n    this\n\nthat\nso"],
  ["<dl><dt>term</dt><dd>meaning</dd></dl><blockquote><p>said</p></blockquote><hr>", "term\nmeaning\nsaid"],
  ["<div>\n<div>one\n  line</div>\n<section><span>two</span> <i>words</i></section></div>", "one line\ntwo words"],
  ["<style>p { color: red }</style><p>seen</p><script>hidden()</script><!-- hidden -->", "seen"],
];

const MARKED =
  "<p>plain <b>bold <i>both</i><br>next</b> <a href='https://example.org/x'>link<br>again</a></p>" +
  "<h2 style='font-weight: 700'>styled</h2><b style='font-weight: normal'><p>as Google has it</p></b><a href='javascript:alert(1)'>no link</a>";

test("list items, cells, blocks, breaks and lines of code become lines", () =>
  withPage(async (page) => {
    for (const [html, lines] of PASTED) {
      await page.goTo("alice");
      await page.paste("alice", html, "text/html");
      assert.equal(await page.text("alice"), lines, html);
      await page.agrees();
      assert.equal(await page.text("bob"), lines);
      await page.browser.keys("a", { control: true });
      await page.browser.keys(BACKSPACE);
      await page.shows("bob", "");
    }
  }));

test("bold, italic and links that are pasted stay, in each of their lines", () =>
  withPage(async (page) => {
    await page.goTo("alice");
    await page.paste("alice", MARKED, "text/html");
    await page.agrees();
    assert.deepEqual(await page.spans("bob"), [
      { text: "plain " },
      { text: "bold ", strong: true },
      { text: "both", em: true, strong: true },
      { text: "\nnext", strong: true },
      { text: " " },
      { text: "link\nagain", link: "https://example.org/x" },
      { text: "\n" },
      { text: "styled", strong: true },
      { text: "\nas Google has it\nno link" },
    ]);
  }));

test("a paste of other programs keeps bold, italic, links and lines, and nothing that only looks so", () =>
  withPage(async (page) => {
    for (const [source, html, wanted] of SOURCES) {
      await page.goTo("alice");
      await page.paste("alice", html, "text/html");
      await page.agrees();
      const spans = await page.spans("bob");
      assert.deepEqual(spans, wanted.map(([text, marks]) => ({ ...marks, text })), source);
      await page.browser.keys("a", { control: true });
      await page.browser.keys(BACKSPACE);
      await page.shows("bob", "");
    }
  }));

test("what is pasted of plain text or of an editor keeps its spaces and its empty lines", () =>
  withPage(async (page) => {
    await page.type("alice", "from  to");
    await page.select("alice", "to");
    await page.paste("alice", "two  spaces\nline");
    await page.shows("alice", "from  two  spaces\nline");
    await page.goTo("alice");
    await page.paste("alice", '<p data-pm-slice="1 1 []">, a</p><p></p><p>b  <strong>c</strong></p>', "text/html");
    await page.shows("bob", "from  two  spaces\nline, a\n\nb  c");
  }));
