/** Lines of a text that comes in parts. */
/** Only LF ends a line: a text may hold other line ends. Each character is looked at once, however long a line gets. */
export class Lines {
    /**
     * The lines that a part ends, without their ends.
     * @param {string} part
     */
    take(part: string): string[];
    #private;
}
