/** The rules of a request's fields, as docs/FORMATS.md has them, and which of them a request breaks. */

import { COUNTER, EDITS, EDIT_CHARACTERS, PLACES, URL_BYTES, WATCHED, WHOLE } from "./limit_table.js";
import { ALL, BESIDE, FORMS, KINDS, NEEDED, ONE, OPTIONAL, PLACE_FIELDS, RULES, SIDES } from "./request_table.js";

/** @typedef {Record<string, unknown>} Request */

/**
 * The text of a place that lasts: the start or the end of the text, or just after or just before a character.
 * @typedef {"start" | "end" | `a${number}@${string}` | `b${number}@${string}`} Lasting
 */

/**
 * How many characters one edit may put in or take away, how many places one request may ask for, and how many edits it may
 * make; how many places one answer tells where a text stands, and how many documents one watch may have.
 */
export { EDIT_CHARACTERS as LONGEST, PLACES as MOST, EDITS as MANY, FOUND, WATCHED } from "./limit_table.js";

const UUID = /^(urn:uuid:|\{)?[0-9a-f]{8}(-?[0-9a-f]{4}){3}-?[0-9a-f]{12}\}?$/i;
const NIL = /^(urn:uuid:)?[0{}-]*$/;
const BESIDE_CHARACTER = /^[ab]([1-9][0-9]{0,14})@([0-9a-fA-F]{8}(?:-[0-9a-fA-F]{4}){3}-[0-9a-fA-F]{12})$/;

/**
 * Which rules the fields of a request break, in words.
 * @param {Request} request
 * @returns {string[]}
 */
export function broken(request) {
  const op = String(request.op);
  const beside = wordsOf(BESIDE, `${op} ${request.docs === undefined ? String(request.kind) : "docs"}`);
  const needed = beside.includes("docs") ? beside : [...wordsOf(NEEDED, op), ...beside];
  const optional = wordsOf(OPTIONAL, op);
  // What is undefined isn't sent.
  const others = Object.keys(request).filter((name) => name !== "op" && request[name] !== undefined && !needed.includes(name));
  const strange = others.filter((name) => !optional.includes(name)).map((name) => `\`${name}\` is no field of this request`);
  const ofOne = op === "edits" && areEdits(request.edits) ? brokenByOne(request.edits) : [];
  return [...wrong(request, needed), ...strange, ...wrong(request, others.filter((name) => optional.includes(name))), ...ofOne];
}

/**
 * Which rules the first of several edits breaks that breaks any.
 * @param {Request[]} edits
 * @returns {string[]}
 */
function brokenByOne(edits) {
  for (const edit of edits) {
    const faults = broken({ ...edit, doc: 1 });
    if (faults.length > 0) return faults.map((fault) => fault.replace("` ", "` of one of the `edits` "));
  }
  return [];
}

/**
 * Whether an edit, or one of several, is about more characters than one may be.
 * @param {Request} request
 * @returns {boolean}
 */
export function isLong({ text, count, edits }) {
  if (areEdits(edits)) return edits.some(isLong);
  return (typeof text === "string" && [...text].length > EDIT_CHARACTERS) || (isWhole(count, 0) && Number(count) > EDIT_CHARACTERS);
}

/**
 * @param {unknown} value
 * @param {number} least
 */
export function isWhole(value, least) {
  return Number.isInteger(value) && Number(value) >= least && Number(value) <= WHOLE;
}

/**
 * @param {Record<string, string>} table
 * @param {string} key
 */
function wordsOf(table, key) {
  return Object.hasOwn(table, key) ? table[key].split(" ") : [];
}

/**
 * @param {Request} request
 * @param {string[]} names
 */
function wrong(request, names) {
  const ruled = names.map((name) => ({ name, rule: ruleOf(String(request.op), name) }));
  return ruled.filter(({ name, rule }) => !HOLDS[rule](request[name])).map(({ name, rule }) => `\`${name}\` has to be ${RULES[rule]}`);
}

/**
 * The rule of a field: that of this request, if it has one of its own.
 * @param {string} op
 * @param {string} name
 */
function ruleOf(op, name) {
  return Object.hasOwn(RULES, `${op} ${name}`) ? `${op} ${name}` : name;
}

/** @param {number} least */
function from(least) {
  return (/** @type {unknown} */ value) => isWhole(value, least);
}

/** @param {unknown} value */
function isText(value) {
  return typeof value === "string" && value !== "";
}

/** @param {any} value */
function isUrl(value) {
  return isText(value) && new TextEncoder().encode(value).length <= URL_BYTES;
}

/** @param {any} value */
function isUuid(value) {
  return typeof value === "string" && UUID.test(value);
}

/** @param {any} value */
function isToken(value) {
  return isUuid(value) && !NIL.test(value);
}

/**
 * Whether it is the text of a place that lasts.
 * @param {any} value
 * @returns {value is Lasting}
 */
export function isLasting(value) {
  const [, counter, replica] = (typeof value === "string" && BESIDE_CHARACTER.exec(value)) || [];
  return counter === undefined ? value === "start" || value === "end" : Number(counter) <= COUNTER && isToken(replica);
}

/** @param {unknown} value */
function isPlace(value) {
  return isWhole(value, 0) || isLasting(value);
}

/**
 * The places that last which an edit names in place of numbers, by its fields.
 * @param {any} edit
 * @returns {[string, Lasting][]}
 */
export function lastingOf(edit) {
  return PLACE_FIELDS.filter((name) => isLasting(edit?.[name])).map((name) => [name, edit[name]]);
}

/**
 * Whether an edit, or one of several, is at a place that lasts.
 * @param {Request} request
 * @returns {boolean}
 */
export function isPlaced(request) {
  return areEdits(request.edits) ? request.edits.some(isPlaced) : lastingOf(request).length > 0;
}

/** @param {any} value */
function isEdit(value) {
  return typeof value === "object" && value !== null && ONE.includes(value.op) && ALL.every((name) => value[name] === undefined);
}

/**
 * @param {unknown} value
 * @returns {value is Request[]}
 */
export function areEdits(value) {
  return HOLDS.edits(value);
}

/**
 * @param {(value: unknown) => boolean} holds
 * @param {number} most
 */
function some(holds, most = PLACES) {
  return (/** @type {any} */ value) => Array.isArray(value) && value.length >= 1 && value.length <= most && value.every(holds);
}

/** @param {any} value */
function isSought(value) {
  return isText(value) && [...value].length <= EDIT_CHARACTERS;
}

/** @type {Record<string, (value: unknown) => boolean>} */
const HOLDS = {
  doc: from(1),
  count: from(1),
  at: isPlace,
  from: isPlace,
  to: isPlace,
  rev: from(0),
  at_rev: from(0),
  every: from(1),
  since: from(0),
  text: isText,
  kind: (value) => KINDS.includes(/** @type {string} */ (value)),
  url: isUrl,
  id: isUuid,
  token: isToken,
  "anchors at": some(from(0)),
  side: (value) => SIDES.includes(/** @type {string} */ (value)),
  anchors: some(isLasting),
  edits: some(isEdit, EDITS),
  "find text": isSought,
  "find from": from(0),
  "export to": (value) => FORMS.includes(/** @type {string} */ (value)),
  breaks: (value) => typeof value === "boolean",
  docs: (value) => value === "all" || some(from(1), WATCHED)(value),
};
