export { Document } from "./document.js";
export { Following } from "./following.js";
export { Lines } from "./lines.js";
export { Reading } from "./reading.js";
export { Session } from "./session.js";
export { Watch } from "./watch.js";
export { WatchMany } from "./watch_many.js";
/**
 * The types of what calls take and give.
 */
export type Abortable = import("./aborting.js").Abortable;
/**
 * The types of what calls take and give.
 */
export type Edit = import("./action.js").Edit;
/**
 * The types of what calls take and give.
 */
export type Lasting = import("./action.js").Lasting;
/**
 * The types of what calls take and give.
 */
export type Place = import("./action.js").Place;
/**
 * The types of what calls take and give.
 */
export type PlacedEdit = import("./action.js").PlacedEdit;
/**
 * The types of what calls take and give.
 */
export type Changes = import("./changing.js").Changes;
/**
 * The types of what calls take and give.
 */
export type Marks = import("./changing.js").Marks;
/**
 * The types of what calls take and give.
 */
export type Step = import("./changing.js").Step;
/**
 * The types of what calls take and give.
 */
export type ConnectOptions = import("./connecting.js").Options;
/**
 * The types of what calls take and give.
 */
export type DocumentCounts = import("./counting.js").DocumentCounts;
/**
 * The types of what calls take and give.
 */
export type Room = import("./counting.js").Room;
/**
 * The types of what calls take and give.
 */
export type Version = import("./counting.js").Version;
/**
 * The types of what calls take and give.
 */
export type ActionOptions = import("./document.js").ActionOptions;
/**
 * The types of what calls take and give.
 */
export type AnchorOptions = import("./document.js").AnchorOptions;
/**
 * The types of what calls take and give.
 */
export type AskOptions = import("./document.js").AskOptions;
/**
 * The types of what calls take and give.
 */
export type EditOptions = import("./document.js").EditOptions;
/**
 * The types of what calls take and give.
 */
export type ExportOptions = import("./document.js").ExportOptions;
/**
 * The types of what calls take and give.
 */
export type FindOptions = import("./document.js").FindOptions;
/**
 * The types of what calls take and give.
 */
export type Form = import("./document.js").Form;
/**
 * The types of what calls take and give.
 */
export type PastOptions = import("./document.js").PastOptions;
/**
 * The types of what calls take and give.
 */
export type Side = import("./document.js").Side;
/**
 * The types of what calls take and give.
 */
export type Found = import("./finding.js").Found;
/**
 * The types of what calls take and give.
 */
export type Change = import("./following.js").Change;
/**
 * The types of what calls take and give.
 */
export type Reset = import("./following.js").Reset;
/**
 * The types of what calls take and give.
 */
export type Mark = import("./marks.js").Mark;
/**
 * The types of what calls take and give.
 */
export type Span = import("./marks.js").Span;
/**
 * The types of what calls take and give.
 */
export type Answer = import("./wire.js").Answer;
/**
 * The types of what calls take and give.
 */
export type Peer = import("./wire.js").Peer;
/**
 * The types of what calls take and give.
 */
export type Transport = import("./wire.js").Transport;
/**
 * The types of what calls take and give.
 */
export type WatchOptions = import("./watch.js").Options;
/**
 * The types of what calls take and give.
 */
export type Settled = import("./watch_many.js").Settled;
export { applied, delta } from "./changing.js";
export { EM, STRONG, comment, link } from "./marks.js";
export { toIndex, toPlace } from "./places.js";
export { Ended, NoDaemon, Refused, Stale } from "./refusals.js";
export { WebConnection, connectWeb, followWeb, watchManyWeb, watchWeb } from "./web.js";
