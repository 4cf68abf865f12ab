/**
 * Cuts off a transport, as far as it can be.
 * @param {Transport} transport
 */
export function cut(transport: Transport): void;
/**
 * @typedef {import("./again.js").Request} Request
 * @typedef {import("./session.js").Session} Session
 * @typedef {import("./wire.js").Transport} Transport
 */
/** Milliseconds for which it is looked for, unless the caller says otherwise, and between two looks. */
export const RETRY: 10000;
/** Looks for another transport to the same file. */
export class Finder {
    /**
     * @param {() => Promise<Transport>} again tries once
     * @param {number} retry milliseconds
     * @param {(transport: Transport) => Session} begin a session to ask with
     */
    constructor(again: () => Promise<Transport>, retry: number, begin: (transport: Transport) => Session);
    /**
     * A request was answered.
     * @param {Request} request
     * @param {import("./wire.js").Answer | Refused} told
     */
    answered(request: Request, told: import("./wire.js").Answer | Refused): void;
    /** Nothing waits any more: whoever asks later has all the time anew. */
    rest(): void;
    /**
     * Another transport; nothing if it is over before. `Ended` if none comes in time, or another file is there.
     * @param {() => boolean} isOver
     */
    find(isOver: () => boolean): Promise<import("./wire.js").Transport | undefined>;
    #private;
}
export type Request = import("./again.js").Request;
export type Session = import("./session.js").Session;
export type Transport = import("./wire.js").Transport;
import { Refused } from "./refusals.js";
