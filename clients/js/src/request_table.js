// Made of docs/protocol.json by `python3 tools/tables.py`: change that file, and not this one.

/** Requests and the rules of their fields. */

/**
 * The fields that a request needs.
 * @type {Record<string, string>}
 */
export const NEEDED = {
  insert: "doc at text",
  delete: "doc at count",
  mark: "doc from to kind",
  unmark: "doc from to kind",
  edits: "doc edits",
  text: "doc",
  spans: "doc",
  versions: "doc every",
  changes: "doc since",
  anchors: "doc at side",
  places: "doc anchors",
  find: "doc text",
  export: "doc to",
  watch: "doc",
};

/**
 * The fields that a mark of some kind needs beside them, or a watch of many documents in their place.
 * @type {Record<string, string>}
 */
export const BESIDE = {
  "mark link": "url",
  "mark comment": "id",
  "unmark comment": "id",
  "watch docs": "docs",
};

/**
 * The fields that a request may have.
 * @type {Record<string, string>}
 */
export const OPTIONAL = {
  insert: "rev token",
  delete: "rev token",
  mark: "rev token",
  unmark: "rev token",
  edits: "rev token",
  text: "at_rev",
  spans: "at_rev",
  find: "from",
  export: "breaks",
};

/**
 * What each field has to be, of any request, or of one in particular.
 * @type {Record<string, string>}
 */
export const RULES = {
  doc: "a whole number from 1 to 4294967295",
  at: "a whole number from 0 to 4294967295, or a place that lasts",
  text: "a text of at least one character",
  rev: "a whole number from 0 to 4294967295",
  token: "a UUID other than the nil one",
  count: "a whole number from 1 to 4294967295",
  from: "a whole number from 0 to 4294967295, or a place that lasts",
  to: "a whole number from 0 to 4294967295, or a place that lasts",
  kind: "strong, em, link or comment",
  url: "a text of 1 to 1024 bytes",
  id: "a UUID",
  edits: "a list of 1 to 1024 edits, each an insert, delete, mark or unmark without `doc`, `rev` and `token`",
  at_rev: "a whole number from 0 to 4294967295",
  every: "a whole number from 1 to 4294967295",
  since: "a whole number from 0 to 4294967295",
  "anchors at": "a list of 1 to 256 whole numbers from 0 to 4294967295",
  side: "previous or next",
  anchors: "a list of 1 to 256 places that last, each a text as the request `anchors` gives it",
  "find text": "a text of 1 to 256 characters",
  "find from": "a whole number from 0 to 4294967295",
  "export to": "text, markdown or html",
  breaks: "true or false",
  docs: "a list of 1 to 1024 whole numbers from 1 to 4294967295, or all",
};

/** The requests that may be made by one of `edits`. */
export const ONE = ["insert", "delete", "mark", "unmark"];

/** The fields that stand beside the list of `edits`. */
export const ALL = ["doc", "rev", "token"];

/** The fields of an edit that are places of the text. */
export const PLACE_FIELDS = ["at", "from", "to"];

/** The kinds of marks. */
export const KINDS = ["strong", "em", "link", "comment"];

/** The neighbours that a place may stay with. */
export const SIDES = ["previous", "next"];

/** The forms of an export. */
export const FORMS = ["text", "markdown", "html"];

/** The requests that an older program doesn't know. */
export const LATER = ["edits", "versions", "changes", "anchors", "places", "find", "export", "documents", "room", "watch"];
