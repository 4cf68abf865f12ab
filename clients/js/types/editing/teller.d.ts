/**
 * @typedef {import("./edits.js").Edit} Edit
 * @typedef {import("./edits.js").Run} Run
 * @typedef {import("./steps.js").Step} Step
 */
/**
 * What leads from a text to the one that the program has at a `rev`. If it isn't told, characters that stayed may count as
 * gone and put in again.
 * @typedef {{steps: readonly Step[], rev: number, isTold: boolean}} Told
 */
export class Teller {
    /**
     * @param {import("../document.js").Document} document
     * @param {(kind: string) => boolean} knows the kinds of marks that an editor shows
     */
    constructor(document: import("../document.js").Document, knows: (kind: string) => boolean);
    document: import("../document.js").Document;
    knows: (kind: string) => boolean;
    /**
     * The whole text, with its `rev`.
     * @returns {Promise<{runs: Run[], rev: number}>}
     */
    all(): Promise<{
        runs: Run[];
        rev: number;
    }>;
    /**
     * What changed since a text that was read over this connection.
     * @param {number} rev
     * @returns {Promise<Told>}
     */
    since(rev: number): Promise<Told>;
    /**
     * What led on from the text that edits made, with the marks that their characters were given. Nothing if the connection is
     * another one by now.
     * @param {readonly Edit[]} edits
     * @param {number} rev of the text before them
     * @param {number} made of the text that they made
     * @param {PromiseSettledResult<Told>} asked what changed since the text before them, if nobody edited meanwhile
     * @returns {Promise<Told | undefined>}
     */
    behind(edits: readonly Edit[], rev: number, made: number, asked: PromiseSettledResult<Told>): Promise<Told | undefined>;
    /**
     * What leads from a text to the one that the program has, over another connection. The file may have been opened anew, or
     * be another one: then a number of operations may name another text there. So the text is read, and what is told is taken
     * only if it leads to that.
     * @param {readonly Run[]} characters
     * @param {number} rev
     * @param {boolean} isSame whether it is the same file
     * @returns {Promise<Told>}
     */
    anew(characters: readonly Run[], rev: number, isSame: boolean): Promise<Told>;
    #private;
}
export type Edit = import("./edits.js").Edit;
export type Run = import("./edits.js").Run;
export type Step = import("./steps.js").Step;
/**
 * What leads from a text to the one that the program has at a `rev`. If it isn't told, characters that stayed may count as
 * gone and put in again.
 */
export type Told = {
    steps: readonly Step[];
    rev: number;
    isTold: boolean;
};
