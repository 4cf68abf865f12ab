/**
 * @typedef {import("../editing/marks.js").Held} Held
 * @typedef {import("../editing/steps.js").Step} Step
 * @typedef {import("../editing/texts.js").Text} Text
 * @typedef {import("./formats.js").Format} Format
 * @typedef {import("./ops.js").Op} Op
 */
/**
 * The contents of a text, with the break that each of them ends with.
 * @param {Text} text
 * @returns {Op[]}
 */
export function contentsOf(text: import("../editing/texts.js").Text): Op[];
/**
 * The steps as Quill counts them.
 * @param {Text} text what they are over
 * @param {readonly Step[]} steps
 * @param {readonly Format[]} formats
 * @returns {Op[]}
 */
export function opsOf(text: import("../editing/texts.js").Text, steps: readonly Step[], formats: readonly Format[]): Op[];
/**
 * Where a selection is behind changes: what comes at a caret is after it, and what comes at the ends of a selection outside of
 * it.
 * @param {{index: number, length: number}} selection
 * @param {readonly Op[]} ops
 */
export function movedBy({ index, length }: {
    index: number;
    length: number;
}, ops: readonly Op[]): {
    index: number;
    length: number;
};
export type Held = import("../editing/marks.js").Held;
export type Step = import("../editing/steps.js").Step;
export type Text = import("../editing/texts.js").Text;
export type Format = import("./formats.js").Format;
export type Op = import("./ops.js").Op;
