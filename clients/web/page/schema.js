/** What a document may hold: paragraphs of text, with the marks that the program has. */

import { Mark, Schema } from "prosemirror-model";

import { isLink } from "./address.js";

const HUES = 6;

/** The class that colours a comment: equal ids have equal colours. */
export function hueOf(id) {
  return `hue-${parseInt(id.slice(0, 6), 16) % HUES}`;
}

export const schema = new Schema({
  nodes: {
    doc: { content: "paragraph+" },
    paragraph: {
      content: "text*",
      marks: "_",
      parseDOM: [{ tag: "p" }, { tag: "div" }, { tag: "li" }, { tag: "h1, h2, h3, h4, h5, h6" }, { tag: "pre", preserveWhitespace: "full" }],
      toDOM: () => ["p", 0],
    },
    text: {},
  },
  marks: {
    link: {
      attrs: { href: {} },
      inclusive: false,
      parseDOM: [{ tag: "a[href]", getAttrs: (node) => isLink(node.getAttribute("href")) && { href: node.getAttribute("href") } }],
      toDOM: ({ attrs: { href } }) => ["a", { href: isLink(href) ? href : "about:blank", title: href, rel: "noreferrer" }, 0],
    },
    em: { parseDOM: [{ tag: "em" }, { tag: "i" }, { style: "font-style=italic" }], toDOM: () => ["em", 0] },
    strong: {
      parseDOM: [
        { tag: "strong" },
        { tag: "b" },
        { style: "font-weight", getAttrs: (value) => /^(bold(er)?|[6-9]\d\d)$/.test(value) && null },
      ],
      toDOM: () => ["strong", 0],
    },
    comment: {
      attrs: { id: {} },
      excludes: "",
      inclusive: false,
      toDOM: ({ attrs: { id } }) => ["span", { class: `comment ${hueOf(id)}`, "data-comment": id }, 0],
    },
  },
});

const { comment } = schema.marks;

/**
 * Comments on one character stand in the order of their ids, whichever was made first or came first: else two editors that
 * hold the same would nest them differently.
 */
class Comment extends Mark {
  addToSet(set) {
    const marks = super.addToSet(set);
    if (marks === set) return set;
    // ProseMirror has them last, as the schema does, but in the order in which they were added.
    const first = marks.findIndex(({ type }) => type === comment);
    return [...marks.slice(0, first), ...marks.slice(first).sort(byId)];
  }
}

function byId({ attrs: { id: one } }, { attrs: { id: other } }) {
  return one < other ? -1 : 1;
}

// All that makes a comment, in the page or in ProseMirror, makes it by this.
comment.create = ({ id }) => new Comment(comment, { id });
