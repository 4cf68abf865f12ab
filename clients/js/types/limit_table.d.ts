/** The limits that a request has to keep. */
/** The limit of characters that an edit puts in or takes away, or that `find` looks for. */
export const EDIT_CHARACTERS: 256;
/** The limit of changes in a line of `edits`. */
export const EDITS: 1024;
/** The limit of bytes of a link's URL. */
export const URL_BYTES: 1024;
/** The limit of bytes of a session's line before its LF. */
export const LINE_BYTES: 65536;
/** The limit of a whole number of a request. */
export const WHOLE: 4294967295;
/** The limit of the counter of an id. */
export const COUNTER: 281474976710655;
/** The limit of places that `anchors` or `places` asks for. */
export const PLACES: 256;
/** The limit of documents that a `watch` lists. */
export const WATCHED: 1024;
/** The limit of places that `find` answers. */
export const FOUND: 1024;
/** The limit of characters that a line takes away, where a client parts the edits: so many can wait together in any file. */
export const TAKEN_CHARACTERS: 2048;
