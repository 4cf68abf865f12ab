/**
 * @typedef {import("../editing/texts.js").Text} Text
 * @typedef {import("./formats.js").Attributes} Attributes
 * @typedef {import("./formats.js").Format} Format
 * @typedef {import("./ops.js").Op} Op
 */
/**
 * What makes contents that were changed so into contents that can be held. Nothing if they can be.
 * @param {readonly Op[]} ops
 * @param {readonly Format[]} formats
 * @returns {Op[]}
 */
export function mendingOf(ops: readonly Op[], formats: readonly Format[]): Op[];
/**
 * A change that cuts a character in two, as one stretch that is replaced; any other one as it is.
 * @param {Text} text what was shown before
 * @param {readonly Op[]} ops
 * @param {(index: number, length: number) => readonly Op[]} contentsAt what the contents are now from an index on
 * @returns {readonly Op[]}
 */
export function withoutCuts(text: import("../editing/texts.js").Text, ops: readonly Op[], contentsAt: (index: number, length: number) => readonly Op[]): readonly Op[];
export type Text = import("../editing/texts.js").Text;
export type Attributes = import("./formats.js").Attributes;
export type Format = import("./formats.js").Format;
export type Op = import("./ops.js").Op;
