/**
 * What carries lines to the program and back. A session sets `onLine`, `onPart` and `onEnd`. The transport calls the
 * first with each line that comes, without its end, the second for each part of a line, and the last once no more will
 * come. One that doesn't tell of parts has a line to come within the session's timeout.
 */
export type Transport = {
    /**
     * sends a line, given without its end
     */
    send: (line: string) => void;
    /**
     * says that no more is sent
     */
    close: () => void;
    /**
     * cuts off both directions at once
     */
    abandon?: (() => void) | undefined;
    onLine?: ((line: string) => void) | undefined;
    onPart?: (() => void) | undefined;
    onEnd?: (() => void) | undefined;
};
/**
 * An answer has those of these fields that its request asks for.
 */
export type Span = import("./marks.js").Span;
/**
 * An answer has those of these fields that its request asks for.
 */
export type Step = import("./changing.js").Step;
/**
 * An answer has those of these fields that its request asks for.
 */
export type Peer = {
    has: number;
    lacks: number;
    replica: string;
};
/**
 * An answer has those of these fields that its request asks for.
 */
export type Row = {
    chars: number;
    doc: number;
    ops: number;
    writers: string[];
};
/**
 * An answer has those of these fields that its request asks for.
 */
export type Stretch = {
    ops: number;
    replica: string;
    rev: number;
};
/**
 * An answer has those of these fields that its request asks for.
 */
export type Answer = {
    ok: true;
    rev: number;
    text: string;
    spans: Span[];
    changes: Step[];
    anchors: import("./rules.js").Lasting[];
    places: (number | null)[];
    applied: number;
    settled: number;
    state: string;
    peers: Peer[];
    sessions: number;
    doc: number;
    documents: Row[] | number;
    versions: Stretch[];
};
