/** The search of one side: a field, how many stretches there are, and steps from one to the next. It is there while it is open alone. */

/** How much may be looked for, in UTF-16 units: the daemon takes as many characters. */
const LONGEST = 256;

export class Search {
  #place;
  #person;
  #acts;
  #field = document.createElement("input");
  #count = document.createElement("span");

  /**
   * @param {HTMLElement} place
   * @param {string} person whose it is
   * @param {object} acts
   * @param {() => import("./finder.js").Finder | undefined} acts.finder that of the text that is shown
   * @param {() => void} acts.onChange another text is looked for
   * @param {(words: string) => void} acts.tell is told what a screen reader says
   * @param {(range?: import("./drawn.js").Range) => void} acts.leave goes back to the text, and to the stretch that is shown
   */
  constructor(place, person, acts) {
    this.#place = place;
    this.#person = person;
    this.#acts = acts;
    this.#field.className = "sought";
    this.#field.maxLength = LONGEST;
    this.#field.setAttribute("aria-label", `Text to find for ${person}`);
    this.#field.addEventListener("input", () => this.#seek());
    this.#count.className = "count";
    place.setAttribute("aria-label", `Search for ${person}`);
    place.addEventListener("keydown", (event) => this.#key(event));
  }

  /**
   * Opens it, and goes there.
   * @param {string} words what is looked for, or nothing to go on with what was
   */
  open(words = "") {
    if (!this.#isOpen) {
      const previous = this.#button("previous", "↑", "Previous place", "Shift-Enter", () => this.#step(-1));
      const next = this.#button("next", "↓", "Next place", "Enter", () => this.#step(1));
      this.#place.append(this.#field, this.#count, previous, next, this.#button("close", "×", "End the search", "Escape", () => this.#close()));
    }
    this.#place.hidden = false;
    if (words !== "") this.#field.value = words;
    this.#field.focus();
    this.#field.select();
    this.#seek();
  }

  /** Looks in the text that is shown now. */
  again() {
    this.#acts.finder()?.seek(this.#isOpen ? this.#field.value : "");
  }

  /** Shows how many stretches there are, and which is the current one. */
  update() {
    if (this.#count.textContent !== this.#words) this.#count.textContent = this.#words;
  }

  /** Says the same. */
  tell() {
    this.update();
    if (this.#words !== "") this.#acts.tell(this.#words);
  }

  get #isOpen() {
    return !this.#place.hidden;
  }

  get #words() {
    const found = this.#isOpen && this.#field.value !== "" ? this.#acts.finder()?.found : undefined;
    if (found === undefined) return "";
    return found.current < 0 ? "none found" : `${found.current + 1} of ${found.ranges.length}`;
  }

  #seek() {
    this.#acts.onChange();
    this.again();
    this.update();
  }

  #step(by) {
    this.#acts.finder()?.step(by);
    this.tell();
  }

  #close() {
    const { ranges, current } = this.#acts.finder()?.found ?? {};
    this.#place.hidden = true;
    this.#place.replaceChildren();
    this.again();
    this.update();
    this.#acts.leave(ranges?.[current]);
  }

  /** @param {KeyboardEvent} event */
  #key(event) {
    if (event.isComposing) return;
    const isHeld = event.ctrlKey || event.metaKey;
    if (event.key === "Enter" && event.target === this.#field) this.#step(event.shiftKey ? -1 : 1);
    else if (event.key === "Escape") this.#close();
    else if (event.key.toLowerCase() === "f" && isHeld) this.#field.select();
    else return;
    // Else the text, which may have the focus by then, would get it too.
    event.preventDefault();
  }

  #button(does, sign, words, key, act) {
    const button = document.createElement("button");
    button.type = "button";
    button.dataset.find = does;
    button.textContent = sign;
    button.title = `${words} (${key})`;
    button.setAttribute("aria-label", `${words} for ${this.#person}`);
    button.addEventListener("click", act);
    return button;
  }
}
