/** The answers that a line can be: those of docs/PROTOCOL.md, and nothing else. */

import { PARTS } from "./counting.js";
import { refused } from "./refusals.js";

/** A line that is no answer to its request, and why. */
export class NoAnswer extends Error {}

/**
 * What a line answers to a request, or the refusal that it tells. `NoAnswer` if it isn't one.
 * @param {string} line
 * @param {Record<string, unknown>} request
 * @returns {import("./wire.js").Answer | import("./refusals.js").Refused}
 */
export function answerOf(line, request) {
  const told = object(line);
  if (told.ok === true) {
    need(told, fieldsOf(request));
    return told;
  }
  if (told.ok === false) {
    need(told, REFUSAL);
    return refused(told.code, told.error, request, atOf(told, request));
  }
  throw new NoAnswer("a line came that doesn't say `ok`");
}

/**
 * The fields of an answer to a request.
 * @param {Record<string, any>} request
 * @returns {Fields}
 */
function fieldsOf({ op, docs, from = 0, at_rev, every }) {
  // Whoever goes on after the last one comes to an end.
  if (op === "find") return { rev: isNumber, places: risingFrom(from) };
  if (op === "versions") return { rev: isNumber, versions: versionsOf(every) };
  if ((op === "text" || op === "spans") && at_rev !== undefined) return { ...FIELDS.get(op), rev: (value) => value === at_rev };
  if (op === "watch" && docs !== undefined) return { doc: (value) => isCount(value) && (docs === "all" || docs.includes(value)), rev: isNumber };
  return FIELDS.get(op) ?? {};
}

/**
 * Which one of several edits was refused, if that is told.
 * @param {Record<string, any>} told
 * @param {Record<string, unknown>} request
 */
function atOf({ at }, { edits }) {
  if (at === undefined || !Array.isArray(edits)) return undefined;
  if (!(isNumber(at) && at < edits.length)) throw new NoAnswer("an answer came without a right `at`");
  return at;
}

/** @param {string} line */
function object(line) {
  let told;
  try {
    told = JSON.parse(line);
  } catch {
    told = undefined;
  }
  if (!isObject(told)) throw new NoAnswer("a line came that is no JSON object");
  return told;
}

/**
 * @param {Record<string, unknown>} told
 * @param {Record<string, (value: unknown) => boolean>} fields
 */
function need(told, fields) {
  for (const [name, isRight] of Object.entries(fields)) {
    if (!isRight(told[name])) throw new NoAnswer(`an answer came without a right \`${name}\``);
  }
}

/** @param {unknown} value */
function isObject(value) {
  return typeof value === "object" && value !== null && !Array.isArray(value);
}

/** @param {unknown} value */
function isNumber(value) {
  return Number.isSafeInteger(value) && /** @type {number} */ (value) >= 0;
}

/** @param {unknown} value */
function isCount(value) {
  return isNumber(value) && /** @type {number} */ (value) > 0;
}

/** @param {unknown} value */
function isText(value) {
  return typeof value === "string";
}

/** @param {unknown} value */
function isFlag(value) {
  return typeof value === "boolean";
}

/** @param {unknown} value */
function areTexts(value) {
  return Array.isArray(value) && value.every(isText);
}

/** @param {unknown} value */
function areSpans(value) {
  return Array.isArray(value) && value.every(isSpan);
}

/** @param {unknown} value */
function arePlaces(value) {
  return Array.isArray(value) && value.every((place) => place === null || isNumber(place));
}

/** @param {number} least */
function risingFrom(least) {
  return (/** @type {any} */ value) => {
    return Array.isArray(value) && value.every((place, index) => isNumber(place) && place >= (index === 0 ? least : value[index - 1] + 1));
  };
}

/**
 * Whether it is a list of objects with these fields.
 * @param {Fields} fields
 */
function all(fields) {
  const isOne = (/** @type {any} */ one) => isObject(one) && Object.entries(fields).every(([name, isRight]) => isRight(one[name]));
  return (/** @type {any} */ value) => Array.isArray(value) && value.every(isOne);
}

/**
 * Whether each has its fields, and at most `every` operations, which add up to its `rev`.
 * @param {number} every
 */
function versionsOf(every) {
  let sum = 0;
  const isNext = (/** @type {any} */ { ops, rev }) => ops <= every && rev === (sum += ops);
  return (/** @type {any} */ value) => VERSIONS(value) && value.every(isNext);
}

/**
 * Whether each has its fields, and their numbers rise.
 * @param {any} value
 */
function areDocuments(value) {
  return ROWS(value) && risingFrom(1)(value.map((/** @type {any} */ { doc }) => doc));
}

/** @param {any} value */
function isSpan(value) {
  return areMarks(value) && isText(value.text);
}

/** @param {any} value */
function areMarks(value) {
  return isObject(value) && MARKS.every(([key, isRight]) => value[key] === undefined || isRight(value[key]));
}

/**
 * Whether it says of each kind of mark what holds, or null.
 * @param {any} value
 */
function areAllMarks(value) {
  return isObject(value) && MARKS.every(([key, isRight]) => value[key] === null || isRight(value[key]));
}

/** @param {unknown} value */
function areSteps(value) {
  return Array.isArray(value) && value.every(isStep);
}

/**
 * Whether it has the fields of a step, and no others, and they are right.
 * @param {any} value
 */
function isStep(value) {
  const fields = isObject(value) ? STEPS.get(Object.keys(value).sort().join()) : undefined;
  return fields !== undefined && Object.entries(fields).every(([name, isRight]) => isRight(value[name]));
}

const MARKS = Object.entries({ strong: isFlag, em: isFlag, link: isText, comments: areTexts });

/** @typedef {Record<string, (value: unknown) => boolean>} Fields */

/** The fields of a step, for each of its forms. */
const STEPS = new Map(
  Object.entries(/** @type {Record<string, Fields>} */ ({
    retain: { retain: isCount },
    delete: { delete: isCount },
    insert: { insert: isText },
    "attributes,insert": { insert: isText, attributes: areMarks },
    "attributes,retain": { retain: isCount, attributes: areAllMarks },
  })),
);
const PEERS = all({ has: isNumber, lacks: isNumber, replica: isText });
const ROWS = all({ doc: isCount, chars: isNumber, ops: isCount, writers: areTexts });
const VERSIONS = all({ ops: isCount, replica: isText, rev: isCount });
const REFUSAL = { code: isNumber, error: isText };
const EDITED = { rev: isNumber };

/**
 * The fields of an answer, by the request.
 * @type {Map<unknown, Fields>}
 */
const FIELDS = new Map(
  Object.entries(/** @type {Record<string, Fields>} */ ({
    insert: EDITED,
    delete: EDITED,
    mark: EDITED,
    unmark: EDITED,
    edits: EDITED,
    text: { rev: isNumber, text: isText },
    spans: { rev: isNumber, spans: areSpans },
    changes: { rev: isNumber, changes: areSteps },
    anchors: { rev: isNumber, anchors: areTexts },
    places: { rev: isNumber, places: arePlaces },
    status: { applied: isNumber, settled: isNumber, state: isText },
    peers: { peers: PEERS, sessions: isNumber },
    documents: { documents: areDocuments },
    room: Object.fromEntries(PARTS.flatMap((part) => [part, `${part}_limit`]).map((name) => [name, isNumber])),
    export: { rev: isNumber, text: isText },
    watch: EDITED,
  })),
);
