/** What is pasted from other pages: each of its lines becomes a paragraph, with the marks that the schema has. */

import { DOMParser } from "prosemirror-model";

import { schema } from "./schema.js";

/** Elements that begin a line and end it. */
const BLOCKS = setOf(
  "address article aside blockquote caption center dd details dialog dir div dl dt fieldset figcaption figure footer form " +
    "h1 h2 h3 h4 h5 h6 header hgroup hr legend li main menu nav ol option p pre section summary table tbody td tfoot th thead tr ul",
);

/** Elements whose text isn't shown. */
const HIDDEN = setOf("head noscript object script style template title");

/** What Word puts before an item of a list: its bullet or number, and spaces. */
const BULLET = /mso-list: *ignore/i;

/** The end of a line: one that was meant is kept without a text too. */
const BREAK = { isMeant: true };
const EDGE = { isMeant: false };

const NO_BREAK = "\u00a0";

class ClipboardParser extends DOMParser {
  parseSlice(dom, options) {
    return super.parseSlice(linesOf(dom, options.preserveWhitespace), options);
  }
}

export const clipboardParser = new ClipboardParser(schema, DOMParser.schemaRules(schema));

function setOf(names) {
  return new Set(names.toUpperCase().split(" "));
}

/** An element with a paragraph for each line of another one. */
function linesOf(dom, keepsSpaces) {
  const lines = dom.ownerDocument.createElement("div");
  let line = [];
  for (const part of [...partsOf(dom, []), EDGE]) {
    if (part.text !== undefined) line.push(part);
    else {
      const isBlank = !keepsSpaces && line.every(({ text, isPre }) => !isPre && /^\s*$/.test(text));
      // Word and others keep an empty line with a space that doesn't break.
      const isEmpty = isBlank && line.some(({ text }) => text.includes(NO_BREAK));
      if (part.isMeant || isEmpty || isShown(line, keepsSpaces)) lines.append(paragraphOf(dom, isEmpty ? [] : line));
      line = [];
    }
  }
  return lines;
}

/** Spaces alone are only shown where all of them are. */
function isShown(line, keepsSpaces) {
  return line.some(({ text, isPre }) => (keepsSpaces || isPre ? text !== "" : /[^ \t\r\n\f]/.test(text)));
}

/**
 * The texts in an element, with the elements around them that may give marks, and the ends of lines.
 * @param {Node} dom
 * @param {HTMLElement[]} around the outermost first
 */
function* partsOf(dom, around) {
  for (const node of dom.childNodes) {
    if (node.nodeType === Node.TEXT_NODE) yield* textsOf(node, around);
    else if (node.nodeName === "BR") yield* breaksOf(node);
    else if (BLOCKS.has(node.nodeName)) yield* blockOf(node, around);
    else if (node.nodeType === Node.ELEMENT_NODE && !isHidden(node)) yield* partsOf(node, [...around, node]);
  }
}

/** @param {HTMLElement} element */
function isHidden(element) {
  return HIDDEN.has(element.nodeName) || BULLET.test(element.getAttribute("style"));
}

function* blockOf(node, around) {
  yield EDGE;
  // An editor has its empty lines so.
  if (node.matches("p:empty")) yield BREAK;
  yield* partsOf(node, [...around, node]);
  yield EDGE;
}

/** Chrome puts one of its own behind all that it copies. */
function* breaksOf(node) {
  if (!node.matches(".Apple-interchange-newline")) yield BREAK;
}

function* textsOf({ data, parentElement }, around) {
  const isPre = parentElement.closest("pre") !== null;
  const texts = isPre ? data.split(/\r\n?|\n/) : [data];
  for (const [index, text] of texts.entries()) {
    if (index > 0) yield BREAK;
    yield { text, around, isPre };
  }
}

function paragraphOf({ ownerDocument }, line) {
  const paragraph = ownerDocument.createElement(line.some(({ isPre }) => isPre) ? "pre" : "p");
  paragraph.append(...line.map(({ text, around }) => marked(ownerDocument, text, around)));
  return paragraph;
}

/** A text with the marks that the elements around it give: the innermost one that says something counts. */
function marked(owner, text, around) {
  // Chrome copies a space beside a mark so.
  const isSpace = text === NO_BREAK && around.at(-1)?.nodeName === "SPAN";
  const names = [...(isOn(around, boldBy) ? ["strong"] : []), ...(isOn(around, italicBy) ? ["em"] : [])];
  const link = around.findLast(({ nodeName }) => nodeName === "A");
  const elements = [...names.map((name) => owner.createElement(name)), ...(link === undefined ? [] : [link.cloneNode(false)])];
  return elements.reduceRight(within, owner.createTextNode(isSpace ? " " : text));
}

/**
 * @param {HTMLElement[]} around
 * @param {(element: HTMLElement) => boolean | undefined} by
 */
function isOn(around, by) {
  const last = around.findLast((element) => by(element) !== undefined);
  return last !== undefined && by(last);
}

/** Whether an element makes its text bold, or says that it isn't; or nothing. A style counts more than a name. */
function boldBy(element) {
  const weight = styleOf(element, "font-weight");
  if (/^(normal|lighter|[1-5]\d\d)$/.test(weight)) return false;
  return /^(bold(er)?|[6-9]\d\d|1000)$/.test(weight) || ["B", "STRONG"].includes(element.nodeName) || undefined;
}

/** The same for italic. */
function italicBy(element) {
  const style = styleOf(element, "font-style");
  if (style === "normal") return false;
  return /^(italic|oblique)/.test(style) || ["I", "EM"].includes(element.nodeName) || undefined;
}

/**
 * What an element's own style says, in its attribute: the page's policy keeps it from becoming a style. Word has names of its own
 * that end alike.
 * @param {HTMLElement} element
 * @param {string} name
 */
function styleOf(element, name) {
  const [, value = ""] = new RegExp(`(?:^|;)\\s*${name}\\s*:\\s*([^;!]*)`, "i").exec(element.getAttribute("style")) ?? [];
  return value.trim().toLowerCase();
}

function within(inner, element) {
  element.append(inner);
  return element;
}
