/** Documents of the peritext program, over any transport of lines: what runs in browsers too. */

/**
 * The types of what calls take and give.
 * @typedef {import("./aborting.js").Abortable} Abortable
 * @typedef {import("./action.js").Edit} Edit
 * @typedef {import("./action.js").Lasting} Lasting
 * @typedef {import("./action.js").Place} Place
 * @typedef {import("./action.js").PlacedEdit} PlacedEdit
 * @typedef {import("./changing.js").Changes} Changes
 * @typedef {import("./changing.js").Marks} Marks
 * @typedef {import("./changing.js").Step} Step
 * @typedef {import("./connecting.js").Options} ConnectOptions
 * @typedef {import("./counting.js").DocumentCounts} DocumentCounts
 * @typedef {import("./counting.js").Room} Room
 * @typedef {import("./counting.js").Version} Version
 * @typedef {import("./document.js").ActionOptions} ActionOptions
 * @typedef {import("./document.js").AnchorOptions} AnchorOptions
 * @typedef {import("./document.js").AskOptions} AskOptions
 * @typedef {import("./document.js").EditOptions} EditOptions
 * @typedef {import("./document.js").ExportOptions} ExportOptions
 * @typedef {import("./document.js").FindOptions} FindOptions
 * @typedef {import("./document.js").Form} Form
 * @typedef {import("./document.js").PastOptions} PastOptions
 * @typedef {import("./document.js").Side} Side
 * @typedef {import("./finding.js").Found} Found
 * @typedef {import("./following.js").Change} Change
 * @typedef {import("./following.js").Reset} Reset
 * @typedef {import("./marks.js").Mark} Mark
 * @typedef {import("./marks.js").Span} Span
 * @typedef {import("./wire.js").Answer} Answer
 * @typedef {import("./wire.js").Peer} Peer
 * @typedef {import("./wire.js").Transport} Transport
 * @typedef {import("./watch.js").Options} WatchOptions
 * @typedef {import("./watch_many.js").Settled} Settled
 */

export { applied, delta } from "./changing.js";
export { Document } from "./document.js";
export { Following } from "./following.js";
export { Lines } from "./lines.js";
export { EM, STRONG, comment, link } from "./marks.js";
export { toIndex, toPlace } from "./places.js";
export { Reading } from "./reading.js";
export { Ended, NoDaemon, Refused, Stale } from "./refusals.js";
export { Session } from "./session.js";
export { Watch } from "./watch.js";
export { WatchMany } from "./watch_many.js";
export { WebConnection, connectWeb, followWeb, watchManyWeb, watchWeb } from "./web.js";
