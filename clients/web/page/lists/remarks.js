/**
 * What comments say, as document 2 has it: a line for each remark, with a tab between its parts.
 *
 *     ID says AUTHOR WORDS      a comment's first words, or an answer
 *     ID resolves AUTHOR        and `reopens`: the last one of both counts
 *
 * The remarks of one comment stand in the order in which they were made. In the words a break is `\n`, and a backslash `\\`. Any
 * other line is left out, and left as it is.
 */

import { nameOf } from "./names.js";

/** How long words may be that are written here. */
export const LONGEST = 2_000;

const ID = /^[0-9a-f]{8}(-[0-9a-f]{4}){3}-[0-9a-f]{12}$/;

/**
 * @typedef {{id: string, kind: "says", author: string, words: string}} Words
 * @typedef {{id: string, kind: "resolves" | "reopens", author: string}} Turn
 * @typedef {{said: {author: string, words: string}[], isResolved: boolean, by: string}} Thread `by`: who resolved it, or reopened
 */

/** The thread of a comment of which nothing is told. */
export const SILENT = Object.freeze({ said: [], isResolved: false, by: "" });

/**
 * The remark in a line, or nothing.
 * @param {string} line
 * @returns {Words | Turn | undefined}
 */
export function remarkIn(line) {
  const [id, kind, name = "", ...rest] = line.split("\t");
  const author = nameOf(name);
  if (!ID.test(id) || author === "") return undefined;
  const words = unescaped(rest.join("\t")).trim();
  if (kind === "says" && words !== "") return { id, kind, author, words };
  return (kind === "resolves" || kind === "reopens") && rest.length === 0 ? { id, kind, author } : undefined;
}

/** @param {Words | Turn} remark */
export function lineOf({ id, kind, author, words }) {
  return [id, kind, nameOf(author), ...(words === undefined ? [] : [escaped(words.trim())])].join("\t");
}

/**
 * The threads of all comments, by their ids.
 * @param {readonly string[]} lines
 */
export function threadsIn(lines) {
  /** @type {Map<string, Thread>} */
  const threads = new Map();
  for (const line of lines) {
    const remark = remarkIn(line);
    if (remark === undefined) continue;
    const { id, kind, author, words } = remark;
    const thread = threads.get(id) ?? SILENT;
    if (kind === "says") threads.set(id, { ...thread, said: [...thread.said, { author, words }] });
    else threads.set(id, { ...thread, isResolved: kind === "resolves", by: author });
  }
  return threads;
}

/** @param {string} words */
function escaped(words) {
  return words.replace(/\\/g, "\\\\").replace(/\r\n?|\n/g, "\\n");
}

/** @param {string} text */
function unescaped(text) {
  return text.replace(/\\([\\n])/g, (_, letter) => (letter === "n" ? "\n" : letter));
}
