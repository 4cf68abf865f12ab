/** Requests and the rules of their fields. */
/**
 * The fields that a request needs.
 * @type {Record<string, string>}
 */
export const NEEDED: Record<string, string>;
/**
 * The fields that a mark of some kind needs beside them, or a watch of many documents in their place.
 * @type {Record<string, string>}
 */
export const BESIDE: Record<string, string>;
/**
 * The fields that a request may have.
 * @type {Record<string, string>}
 */
export const OPTIONAL: Record<string, string>;
/**
 * What each field has to be, of any request, or of one in particular.
 * @type {Record<string, string>}
 */
export const RULES: Record<string, string>;
/** The requests that may be made by one of `edits`. */
export const ONE: string[];
/** The fields that stand beside the list of `edits`. */
export const ALL: string[];
/** The fields of an edit that are places of the text. */
export const PLACE_FIELDS: string[];
/** The kinds of marks. */
export const KINDS: string[];
/** The neighbours that a place may stay with. */
export const SIDES: string[];
/** The forms of an export. */
export const FORMS: string[];
/** The requests that an older program doesn't know. */
export const LATER: string[];
