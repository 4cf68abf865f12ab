/**
 * The spans, and what is told to have changed since a number of before, both of one moment. Whether that leads to the spans
 * is for the caller to see: the file may have been opened anew, or be another one.
 * @param {import("./document.js").Document} document
 * @param {number} [since] nothing if it is known to name another text
 * @returns {Promise<{told: import("./changing.js").Step[] | undefined, spans: import("./marks.js").Span[], rev: number}>}
 */
export function readAnew(document: import("./document.js").Document, since?: number | undefined): Promise<{
    told: import("./changing.js").Step[] | undefined;
    spans: import("./marks.js").Span[];
    rev: number;
}>;
