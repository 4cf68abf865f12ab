/** Refusals by their numbers, and what is said of them. */
export const MEMORY: 1;
export const SYNTAX: 2;
export const REQUEST: 3;
export const FIELD: 4;
export const RANGE: 5;
export const STALE: 6;
export const LIMIT: 7;
export const BUSY: 8;
export const FAILED: 9;
export const STEPS: 10;
export const LINE: 11;
export const STOPPING: 12;
/**
 * Why, and what to do, by the number of a refusal: what the program itself says on a terminal.
 * @type {Record<number, string>}
 */
export const ADVICE: Record<number, string>;
export const MEND: "mend what wrote it";
export const FULL: "the file has all the operations, records, documents or replicas that it may have (docs/OPERATING.md, Limits), and can still be read";
export const LONG: "at most 256 characters in one edit; send it in parts";
export const MUCH: "what one action takes away waits together for the disk, 2,048 characters in any file: make several, or let it be parted; else";
export const OLDER: "an older program knows no";
export const RENEW: "start one that is as new as this client";
export const TOKEN: "an older program knows no `token`; start one that is as new as this client";
export const PAST: "an older program knows no `at_rev`; start one that is as new as this client";
export const PLACE: "an older program takes no places that last in edits; start one that is as new as this client";
export const ONE_LINE: "one line takes 1,024 edits, of at most 256 characters each, and 65,536 bytes: make several actions, or let it be parted";
