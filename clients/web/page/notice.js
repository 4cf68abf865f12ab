/** What is missing, or what went wrong, in a line below the text. The style keeps its room free, so that nothing moves when it comes or goes. */

export class Notice {
  #place;
  #tell;
  #kind;

  /**
   * @param {HTMLElement} place
   * @param {(text: string) => void} tell is told what a screen reader says
   */
  constructor(place, tell) {
    this.#place = place;
    this.#tell = tell;
  }

  /**
   * @param {"fault" | "hint"} kind
   * @param {string} text
   */
  say(kind, text) {
    this.#kind = kind;
    // It is told once, and not at each try that fails.
    if (this.#place.textContent === text) return;
    this.#place.textContent = text;
    this.#tell(text);
  }

  /** @param {"fault" | "hint"} kind */
  clear(kind) {
    if (this.#kind === kind) this.#place.textContent = "";
  }
}
