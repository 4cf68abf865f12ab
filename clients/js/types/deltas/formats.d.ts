/**
 * Whether a kind of marks is shown, for an editor that has some formats.
 * @param {readonly Format[]} formats
 */
export function knowing(formats: readonly Format[]): (kind: string) => boolean;
/**
 * The attributes of text that has marks.
 * @param {Held} marks
 * @returns {Attributes}
 */
export function attributesOf({ strong, em, link: url, comments }: Held): Attributes;
/**
 * The attributes that give characters just these marks, whatever they had.
 * @param {Held} marks
 * @param {readonly Format[]} formats
 * @returns {Attributes}
 */
export function allAttributesOf(marks: Held, formats: readonly Format[]): Attributes;
/**
 * The marks of text that comes with attributes, as far as they can be held.
 * @param {Attributes} attributes
 * @param {readonly Format[]} formats
 * @returns {Held}
 */
export function heldBy({ bold, italic, link: url, comments }: Attributes, formats: readonly Format[]): Held;
/**
 * What attributes change of the marks of characters: of each format that they name, whatever it was, but of comments only
 * which ones come and go.
 * @param {Held} marks
 * @param {Attributes} attributes
 * @param {readonly Format[]} formats
 * @returns {Change[]}
 */
export function changesBy(marks: Held, attributes: Attributes, formats: readonly Format[]): Change[];
/**
 * What characters with these attributes need to have instead, where that can't be held.
 * @param {Attributes} attributes
 * @param {readonly Format[]} formats
 * @returns {Attributes | undefined}
 */
export function mendedBy(attributes: Attributes, formats: readonly Format[]): Attributes | undefined;
/** The formats that Quill has by itself. */
export const FORMATS: readonly Format[];
export type Change = import("../editing/marks.js").Change;
export type Held = import("../editing/marks.js").Held;
export type Format = "bold" | "italic" | "link" | "comments";
/**
 * what characters are to have, by the names of formats; null takes one away
 */
export type Attributes = Record<string, unknown>;
