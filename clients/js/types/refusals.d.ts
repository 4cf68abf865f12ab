/**
 * The error for a refusal.
 * @param {number} number
 * @param {string} word
 * @param {import("./rules.js").Request} [request]
 * @param {number} [at]
 */
export function refused(number: number, word: string, request?: import("./rules.js").Request | undefined, at?: number | undefined): Refused;
/**
 * A request that was refused: its number and its word. Nothing was changed, except where the number is 9: then the
 * device failed, and whether the edit is there is known once the file is opened again. `at` is which edit of an action was
 * refused, from 0 on, if that is told.
 */
export class Refused extends Error {
    /**
     * @param {number} number
     * @param {string} word
     * @param {import("./rules.js").Request} [request]
     * @param {number} [at]
     */
    constructor(number: number, word: string, request?: import("./rules.js").Request | undefined, at?: number | undefined);
    number: number;
    word: string;
    at: number | undefined;
}
/**
 * The document isn't at the `rev` that the edit was made for (6), what changed since one can't be told, or this session
 * hasn't read it yet: read it anew, and make the edit for what is there.
 */
export class Stale extends Refused {
}
/** The session ended before this request was answered, and why. Whether an edit is there is known once the file is opened again. */
export class Ended extends Error {
    /**
     * @param {string} message
     * @param {{wasSent?: boolean}} options whether the request was sent before
     */
    constructor(message: string, { wasSent }?: {
        wasSent?: boolean;
    });
    wasSent: boolean;
}
/** Nobody listens on the port, or somebody who serves no sessions. */
export class NoDaemon extends Error {
    /** @param {string} message */
    constructor(message: string);
}
