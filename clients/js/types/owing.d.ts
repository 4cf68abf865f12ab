/** The answers that are due, in the order of their requests. */
/** @typedef {import("./wire.js").Answer} Answer */
/** An answer that is due, and its request. */
export class Owed {
    /** @param {Record<string, unknown>} request */
    constructor(request: Record<string, unknown>);
    /** How often the request was sent. */
    sent: number;
    /** Whether nobody waits for the answer any more. */
    isGivenUp: boolean;
    /** @type {(answer: Answer) => void} */
    resolve: (answer: Answer) => void;
    /** @type {(error: Error) => void} */
    reject: (error: Error) => void;
    request: Record<string, unknown>;
    /** @type {Promise<Answer>} */
    answer: Promise<Answer>;
}
/** All answers that are due. */
export class Due {
    get isNone(): boolean;
    /** The one that is answered next. */
    get first(): Owed | undefined;
    /** @param {Owed} owed */
    add(owed: Owed): void;
    /** The first one is answered. */
    answered(): void;
    /**
     * The first one was answered, but isn't done.
     * @param {Owed} owed
     */
    putOff(owed: Owed): void;
    /**
     * Lets go of those that were given up. What is under way is answered all the same: without its place in the order no other
     * answer could be told apart.
     * @param {boolean} isUnderWay whether what waits was sent, over a transport that still brings answers
     */
    letGo(isUnderWay: boolean): void;
    /** All of them, in the order in which they are sent again. */
    again(): Owed[];
    /** All of them, of which none is due any more. */
    takeAll(): Owed[];
    #private;
}
export type Answer = import("./wire.js").Answer;
