/**
 * @typedef {import("./aborting.js").Abortable} Abortable
 * @typedef {import("./counting.js").DocumentCounts} DocumentCounts
 * @typedef {import("./counting.js").Room} Room
 * @typedef {import("./wire.js").Answer} Answer
 * @typedef {import("./wire.js").Transport} Transport
 */
/**
 * Requests and their answers, in order. Any number of requests can be under way. If no byte comes for `timeout`
 * milliseconds while an answer is due, the session ends; with null it waits as long as it takes.
 *
 * With `again` it outlives its transport: what wasn't answered is sent again over another one, in its order and before
 * anything else. Each edit has a token, under which the file makes it once. `again` tries once to reach the same file; it
 * is called again and again, for `retry` milliseconds without an answer; with null nothing is sent twice.
 */
export class Session {
    /**
     * @param {Transport} transport
     * @param {{timeout?: number | null, again?: () => Promise<Transport>, retry?: number | null}} options
     */
    constructor(transport: Transport, { timeout, again, retry }?: {
        timeout?: number | null;
        again?: () => Promise<Transport>;
        retry?: number | null;
    });
    /**
     * The document of a number from 1 to 2^32 - 1. One that nobody edited is empty.
     * @param {number} number
     */
    document(number: number): Document;
    /**
     * The answer to a request, as it comes: `Refused` where it is refused, `Ended` where none comes. What is sent first
     * is done first, so there is no need to wait for one answer before the next request. Once the signal is aborted it rejects
     * with the signal's reason: what was sent by then may be done, and what wasn't isn't sent.
     * @param {Record<string, unknown>} fields
     * @param {Abortable} options
     * @returns {Promise<Answer>}
     */
    send(fields: Record<string, unknown>, { signal }?: Abortable): Promise<Answer>;
    /** Why this session ended, in words, once it has. */
    get reason(): string | undefined;
    /**
     * Whether this session was told a `rev` of a document. Before, the number of another session could name another text.
     * @param {number} document
     */
    knowsRev(document: number): boolean;
    /** How many transports of this session have ended. */
    get parted(): number;
    /**
     * Whether all that was edited is settled on the disk.
     * @param {Abortable} [options]
     */
    settled(options?: import("./aborting.js").Abortable | undefined): Promise<boolean>;
    /**
     * Who is connected to the daemon: its peers, with how many operations each has and lacks, and how many sessions. Over a
     * file it is this session alone.
     * @param {Abortable} [options]
     */
    peers(options?: import("./aborting.js").Abortable | undefined): Promise<{
        peers: import("./wire.js").Peer[];
        sessions: number;
    }>;
    /**
     * What is counted of each document that has operations, in rising order of their numbers. What isn't settled yet is counted,
     * as `text` shows it. It costs nothing for the characters of a document. An earlier program refuses it (3).
     * @param {Abortable} [options]
     * @returns {Promise<DocumentCounts[]>}
     */
    documents(options?: import("./aborting.js").Abortable | undefined): Promise<DocumentCounts[]>;
    /**
     * How much the file has of what there is a limit to, with the limits: what `peritext list` says of a file, and the steps since
     * it was opened. An earlier program refuses it (3).
     * @param {Abortable} [options]
     * @returns {Promise<Room>}
     */
    room(options?: import("./aborting.js").Abortable | undefined): Promise<Room>;
    /**
     * Has all that was edited settled, and no more edits taken (`Refused`, 12). A daemon ends with that, for all its
     * sessions and peers.
     * @param {Abortable} [options]
     */
    stop(options?: import("./aborting.js").Abortable | undefined): Promise<void>;
    /** Ends the session, once all that was sent is answered. */
    close(): Promise<void>;
    /** Ends the session at once. What waits is `Ended`, and an edit of that may be made or not. */
    abandon(): void;
    #private;
}
export type Abortable = import("./aborting.js").Abortable;
export type DocumentCounts = import("./counting.js").DocumentCounts;
export type Room = import("./counting.js").Room;
export type Answer = import("./wire.js").Answer;
export type Transport = import("./wire.js").Transport;
import { Document } from "./document.js";
