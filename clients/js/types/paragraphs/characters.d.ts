/**
 * The texts of paragraphs, each with its marks.
 * @param {Node | import("prosemirror-model").Fragment} paragraphs
 */
export function runsOf(paragraphs: Node | import("prosemirror-model").Fragment): import("../editing/edits.js").Run[];
/**
 * The paragraphs of texts with their marks, of which there is always one.
 * @param {Schema} schema
 * @param {readonly Run[]} runs
 */
export function paragraphsOf(schema: Schema, runs: readonly Run[]): any[];
/**
 * The document of texts with their marks.
 * @param {Schema} schema
 * @param {readonly Run[]} runs
 */
export function documentOf(schema: Schema, runs: readonly Run[]): any;
/**
 * The program's mark for one of the editor's, if it has one.
 * @param {EditorMark} mark
 * @returns {import("../marks.js").Mark | undefined}
 */
export function sentMark(mark: EditorMark): import("../marks.js").Mark | undefined;
/**
 * The editor's mark for one of the program's, if the schema has one.
 * @param {Schema} schema
 * @param {{kind: string, url?: string, id?: string}} mark
 * @returns {EditorMark | undefined}
 */
export function shownMark(schema: Schema, { kind, url, id }: {
    kind: string;
    url?: string;
    id?: string;
}): EditorMark | undefined;
/**
 * The editor's marks, in the schema's order.
 * @param {Schema} schema
 * @param {Held} marks
 */
export function marksOf(schema: Schema, { strong, em, link: url, comments }: Held): readonly import("prosemirror-model").Mark[];
/**
 * Whether the program can hold a document: plain paragraphs, of text with marks that it has.
 * @param {Node} doc
 * @param {Node} [before] one that it can hold: what both have isn't looked at
 */
export function isHeld(doc: Node, before?: import("prosemirror-model").Node | undefined): boolean;
/**
 * The children of a document that it doesn't share with one before, at the same place from its start or from its end; and how
 * many more it has.
 * @param {Node} doc
 * @param {Node} [before]
 */
export function changedIn(doc: Node, before?: import("prosemirror-model").Node | undefined): {
    first: number;
    end: number;
    shift: number;
};
export type Node = import("prosemirror-model").Node;
export type EditorMark = import("prosemirror-model").Mark;
export type Schema = import("prosemirror-model").Schema;
export type Held = import("../editing/marks.js").Held;
export type Run = import("../editing/edits.js").Run;
