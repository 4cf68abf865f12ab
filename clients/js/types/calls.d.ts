/**
 * @typedef {import("./action.js").Piece} Piece
 * @typedef {import("./again.js").Request} Request
 */
/**
 * The fields of a request that makes a part of a call, how much was made before, and which edits of the caller's it has.
 * @typedef {{fields: Request, made: number, numbers?: (number | undefined)[]}} Part
 */
/**
 * The lists of at most 256 that make up a list. What is no list is refused as it is.
 * @template T
 * @param {T[]} all
 */
export function parts<T>(all: T[]): T[][];
/**
 * The edits that take a stretch away.
 * @param {import("./action.js").Place} at
 * @param {number} count
 * @returns {Generator<Part, void>}
 */
export function stretches(at: import("./action.js").Place, count: number): Generator<Part, void>;
/**
 * The lines that make edits at once.
 * @param {Iterable<Piece[]>} pieces those of each
 * @returns {Generator<Part, void>}
 */
export function lines(pieces: Iterable<Piece[]>): Generator<Part, void>;
/**
 * Has a refusal of a line tell which edit of the caller's it is about.
 * @param {Part} part
 */
export function naming({ fields, numbers }: Part): (error: unknown) => never;
export type Piece = import("./action.js").Piece;
export type Request = import("./again.js").Request;
/**
 * The fields of a request that makes a part of a call, how much was made before, and which edits of the caller's it has.
 */
export type Part = {
    fields: Request;
    made: number;
    numbers?: (number | undefined)[];
};
