/**
 * A session of the daemon whose `--sessions` port this is. `NoDaemon` if there is none; `Refused` with the number 8 if
 * all 32 places are taken.
 *
 * If the connection ends, the session connects again to the same port, which it takes for the same file, and sends again
 * what wasn't answered. It asks first for an edit that it was answered, and is `Ended` if another file is served there.
 * @param {number} port
 * @param {import("./connecting.js").Options} options
 */
export function connect(port: number, options?: import("./connecting.js").Options): Promise<import("./session.js").Session>;
/**
 * Tells of the changes of a document of the daemon whose `--sessions` port this is, over a connection of its own, which
 * takes a place more.
 * @param {number} port
 * @param {number} document
 * @param {import("./watch.js").Options} options
 */
export function watch(port: number, document: number, options?: import("./watch.js").Options): Watch;
/**
 * Tells of the changes of many documents, 1 to 1,024 of them or `"all"`, new ones too, over one connection, which takes one place
 * more.
 * @param {number} port
 * @param {Iterable<number> | "all"} documents
 * @param {import("./watch.js").Options} options
 */
export function watchMany(port: number, documents: Iterable<number> | "all", options?: import("./watch.js").Options): WatchMany;
/**
 * Shows a document of the daemon whose `--sessions` port this is, and each change of it. It has a session and a watch, which
 * take two places.
 * @param {number} port
 * @param {number} document
 * @param {import("./following.js").Options} options
 */
export function follow(port: number, document: number, options?: import("./following.js").Options): Following;
import { Watch } from "./watch.js";
import { WatchMany } from "./watch_many.js";
import { Following } from "./following.js";
