/** What goes between a session and the program: types alone. */

/**
 * What carries lines to the program and back. A session sets `onLine`, `onPart` and `onEnd`. The transport calls the
 * first with each line that comes, without its end, the second for each part of a line, and the last once no more will
 * come. One that doesn't tell of parts has a line to come within the session's timeout.
 * @typedef {object} Transport
 * @property {(line: string) => void} send sends a line, given without its end
 * @property {() => void} close says that no more is sent
 * @property {() => void} [abandon] cuts off both directions at once
 * @property {(line: string) => void} [onLine]
 * @property {() => void} [onPart]
 * @property {() => void} [onEnd]
 */

/**
 * An answer has those of these fields that its request asks for.
 * @typedef {import("./marks.js").Span} Span
 * @typedef {import("./changing.js").Step} Step
 * @typedef {{has: number, lacks: number, replica: string}} Peer
 * @typedef {{chars: number, doc: number, ops: number, writers: string[]}} Row
 * @typedef {{ops: number, replica: string, rev: number}} Stretch
 * @typedef {{ok: true, rev: number, text: string, spans: Span[], changes: Step[], anchors: import("./rules.js").Lasting[], places: (number | null)[],
 *   applied: number, settled: number, state: string, peers: Peer[], sessions: number, doc: number, documents: Row[] | number,
 *   versions: Stretch[]}} Answer
 */

export {};
