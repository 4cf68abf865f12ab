/** What `index.js` has, and sessions of a program of one's own or of a daemon. */

export * from "./index.js";
export { FileSession, init, open } from "./file.js";
export { connect, follow, watch, watchMany } from "./socket.js";
