/**
 * @typedef {import("../editing/edits.js").Edit} Edit
 * @typedef {import("../editing/edits.js").Marking} Marking
 * @typedef {import("../editing/edits.js").Run} Run
 * @typedef {import("../editing/marks.js").Change} Change
 * @typedef {import("../editing/texts.js").Text} Text
 * @typedef {import("./formats.js").Attributes} Attributes
 * @typedef {import("./formats.js").Format} Format
 * @typedef {import("./ops.js").Op} Op
 */
/**
 * Characters of the text as it comes to be, and what changes of their marks.
 * @typedef {{from: number, to: number, changes: Change[]}} Stretch
 */
/**
 * The edits of a change of contents, which are a text and the editor's own break at its end.
 * @param {Text} text what was shown before
 * @param {readonly Op[]} ops none of which cuts a character in two
 * @param {readonly Format[]} formats
 * @returns {Edit[]}
 */
export function editsOf(text: import("../editing/texts.js").Text, ops: readonly Op[], formats: readonly Format[]): Edit[];
export type Edit = import("../editing/edits.js").Edit;
export type Marking = import("../editing/edits.js").Marking;
export type Run = import("../editing/edits.js").Run;
export type Change = import("../editing/marks.js").Change;
export type Text = import("../editing/texts.js").Text;
export type Attributes = import("./formats.js").Attributes;
export type Format = import("./formats.js").Format;
export type Op = import("./ops.js").Op;
/**
 * Characters of the text as it comes to be, and what changes of their marks.
 */
export type Stretch = {
    from: number;
    to: number;
    changes: Change[];
};
