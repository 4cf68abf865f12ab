/**
 * Quill's formats for the marks of the program: `bold`, `italic`, `link`, and `comments`, whose value is the ids of all comments
 * on a character, rising, with a space between two.
 */

import { changesBetween, isHeldId, isHeldUrl } from "../editing/marks.js";
import { EM, STRONG, link } from "../marks.js";

/**
 * @typedef {import("../editing/marks.js").Change} Change
 * @typedef {import("../editing/marks.js").Held} Held
 * @typedef {"bold" | "italic" | "link" | "comments"} Format
 * @typedef {Record<string, unknown>} Attributes what characters are to have, by the names of formats; null takes one away
 */

/** The kinds of marks that formats are for. */
const KINDS = { bold: "strong", italic: "em", link: "link", comments: "comment" };

/** The formats that Quill has by itself. */
export const FORMATS = Object.freeze(/** @type {Format[]} */ (["bold", "italic", "link"]));

/**
 * Whether a kind of marks is shown, for an editor that has some formats.
 * @param {readonly Format[]} formats
 */
export function knowing(formats) {
  const kinds = formats.map((format) => KINDS[format]);
  return (/** @type {string} */ kind) => kinds.includes(kind);
}

/**
 * The attributes of text that has marks.
 * @param {Held} marks
 * @returns {Attributes}
 */
export function attributesOf({ strong, em, link: url, comments }) {
  return { ...(strong && { bold: true }), ...(em && { italic: true }), ...(url && { link: url }), ...(comments && { comments: comments.join(" ") }) };
}

/**
 * The attributes that give characters just these marks, whatever they had.
 * @param {Held} marks
 * @param {readonly Format[]} formats
 * @returns {Attributes}
 */
export function allAttributesOf(marks, formats) {
  const found = attributesOf(marks);
  return Object.fromEntries(formats.map((format) => [format, found[format] ?? null]));
}

/**
 * The marks of text that comes with attributes, as far as they can be held.
 * @param {Attributes} attributes
 * @param {readonly Format[]} formats
 * @returns {Held}
 */
export function heldBy({ bold, italic, link: url, comments }, formats) {
  const has = (/** @type {Format} */ format) => formats.includes(format);
  const ids = has("comments") && typeof comments === "string" ? idsIn(comments) : [];
  return {
    ...(has("bold") && Boolean(bold) && { strong: /** @type {true} */ (true) }),
    ...(has("italic") && Boolean(italic) && { em: /** @type {true} */ (true) }),
    ...(has("link") && isHeldUrl(url) && { link: url }),
    ...(ids.length > 0 && { comments: ids }),
  };
}

/**
 * What attributes change of the marks of characters: of each format that they name, whatever it was, but of comments only
 * which ones come and go.
 * @param {Held} marks
 * @param {Attributes} attributes
 * @param {readonly Format[]} formats
 * @returns {Change[]}
 */
export function changesBy(marks, attributes, formats) {
  const wanted = heldBy(attributes, formats);
  return formats.filter((format) => format in attributes).flatMap((format) => {
    switch (format) {
      case "bold":
        return [{ mark: STRONG, isOn: wanted.strong === true }];
      case "italic":
        return [{ mark: EM, isOn: wanted.em === true }];
      case "link":
        return [{ mark: link(wanted.link), isOn: wanted.link !== undefined }];
      case "comments":
        return changesBetween({ comments: marks.comments }, { comments: wanted.comments });
    }
  });
}

/**
 * What characters with these attributes need to have instead, where that can't be held.
 * @param {Attributes} attributes
 * @param {readonly Format[]} formats
 * @returns {Attributes | undefined}
 */
export function mendedBy(attributes, formats) {
  const held = attributesOf(heldBy(attributes, formats));
  const wrong = Object.keys(attributes).filter((name) => (attributes[name] || null) !== (held[name] ?? null));
  return wrong.length === 0 ? undefined : Object.fromEntries(wrong.map((name) => [name, held[name] ?? null]));
}

/** @param {string} comments */
function idsIn(comments) {
  return [...new Set(comments.split(/\s+/))].filter(isHeldId).sort();
}
