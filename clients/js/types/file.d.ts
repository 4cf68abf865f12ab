/**
 * Makes the file of a new replica, with an id that nobody else has, and gives that id.
 * @param {string} file
 * @param {{replica?: string, program?: string}} options
 */
export function init(file: string, { replica, program }?: {
    replica?: string;
    program?: string;
}): Promise<string>;
/**
 * A session over a file, which no other program can have open meanwhile. `Refused` if it can't be opened, as 54 if
 * another program has it. It sends nothing twice by itself: an edit that wasn't answered can be sent with its `token` again,
 * once the file is opened anew.
 * @param {string} file
 * @param {{program?: string, timeout?: number | null, signal?: AbortSignal}} options `timeout`: milliseconds without a byte
 *   while an answer is due, or null for no limit; `signal` ends the opening, if it is aborted before there is a session
 */
export function open(file: string, { program, timeout, signal }?: {
    program?: string;
    timeout?: number | null;
    signal?: AbortSignal;
}): Promise<FileSession>;
/** A session of a program of its own, which holds the file alone. */
export class FileSession extends Session {
    /**
     * @param {string} program
     * @param {string} file
     * @param {{timeout?: number | null}} options
     */
    constructor(program: string, file: string, options: {
        timeout?: number | null;
    });
    #private;
}
import { Session } from "./session.js";
