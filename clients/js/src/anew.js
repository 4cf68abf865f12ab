/** A document that is read anew over another connection, where a number of before may name another text. */

import { Refused } from "./refusals.js";

/**
 * The spans, and what is told to have changed since a number of before, both of one moment. Whether that leads to the spans
 * is for the caller to see: the file may have been opened anew, or be another one.
 * @param {import("./document.js").Document} document
 * @param {number} [since] nothing if it is known to name another text
 * @returns {Promise<{told: import("./changing.js").Step[] | undefined, spans: import("./marks.js").Span[], rev: number}>}
 */
export async function readAnew(document, since) {
  const { session, number } = document;
  for (;;) {
    const asked = since === undefined ? undefined : session.send({ op: "changes", doc: number, since }).catch(nothingIfRefused);
    const [told, { spans, rev }] = await Promise.all([asked, document.readSpans()]);
    if (told === undefined || told.rev === rev) return { told: told?.changes, spans, rev };
  }
}

/**
 * @param {unknown} error
 * @returns {undefined}
 */
function nothingIfRefused(error) {
  if (error instanceof Refused) return undefined;
  throw error;
}
