/**
 * What a line answers to a request, or the refusal that it tells. `NoAnswer` if it isn't one.
 * @param {string} line
 * @param {Record<string, unknown>} request
 * @returns {import("./wire.js").Answer | import("./refusals.js").Refused}
 */
export function answerOf(line: string, request: Record<string, unknown>): import("./wire.js").Answer | import("./refusals.js").Refused;
/** A line that is no answer to its request, and why. */
export class NoAnswer extends Error {
}
export type Fields = {
    [x: string]: (value: unknown) => boolean;
};
