/**
 * As `connect` has it, over a WebSocket of the daemon whose `--web` port this is. A web page has to be of an origin that the
 * daemon was given by `--origin`.
 * @param {number} port
 * @param {import("./connecting.js").Options} options
 */
export function connectWeb(port: number, options?: import("./connecting.js").Options): Promise<import("./session.js").Session>;
/**
 * As `watch` has it, over a WebSocket of its own of the daemon whose `--web` port this is.
 * @param {number} port
 * @param {number} document
 * @param {import("./watch.js").Options} options
 */
export function watchWeb(port: number, document: number, options?: import("./watch.js").Options): Watch;
/**
 * As `watchMany` has it, over a WebSocket of its own of the daemon whose `--web` port this is.
 * @param {number} port
 * @param {Iterable<number> | "all"} documents
 * @param {import("./watch.js").Options} options
 */
export function watchManyWeb(port: number, documents: Iterable<number> | "all", options?: import("./watch.js").Options): WatchMany;
/**
 * As `follow` has it, over two WebSockets of the daemon whose `--web` port this is.
 * @param {number} port
 * @param {number} document
 * @param {import("./following.js").Options} options
 */
export function followWeb(port: number, document: number, options?: import("./following.js").Options): Following;
/** The lines of a WebSocket: each message is one, both ways. */
export class WebConnection {
    /** @param {number} port */
    constructor(port: number);
    /** @type {(line: string) => void} */
    onLine: (line: string) => void;
    onPart: () => void;
    onEnd: () => void;
    /**
     * Why there is no connection.
     * @type {string | undefined}
     */
    fault: string | undefined;
    /** @param {string} line */
    send(line: string): void;
    /** What was sent is answered first: a WebSocket that is closing hands on no message. */
    close(): void;
    abandon(): void;
    /** No more comes. */
    ended(): void;
    #private;
}
import { Watch } from "./watch.js";
import { WatchMany } from "./watch_many.js";
import { Following } from "./following.js";
