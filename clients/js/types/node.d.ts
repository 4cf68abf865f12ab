export * from "./index.js";
export { FileSession, init, open } from "./file.js";
export { connect, follow, watch, watchMany } from "./socket.js";
