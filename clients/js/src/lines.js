/** Lines of a text that comes in parts. */

/** Only LF ends a line: a text may hold other line ends. Each character is looked at once, however long a line gets. */
export class Lines {
  /** @type {string[]} */
  #begun = [];

  /**
   * The lines that a part ends, without their ends.
   * @param {string} part
   */
  take(part) {
    const [first, ...others] = part.split("\n");
    this.#begun.push(first);
    const last = others.pop();
    if (last === undefined) return [];
    const lines = [this.#begun.join(""), ...others];
    this.#begun = [last];
    return lines;
  }
}
