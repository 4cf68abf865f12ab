/** The buttons above a text, and the field for the address of a link. */

import { addressOf } from "./address.js";
import { has } from "./commands.js";
import { schema } from "./schema.js";

export class Tools {
  #place;

  /**
   * @param {HTMLElement} place
   * @param {string} person whose they are
   * @param {object} acts
   * @param {(what: string) => void} acts.press a button
   * @param {() => void} acts.link Enter in the field
   * @param {() => void} acts.leave Escape there
   */
  constructor(place, person, acts) {
    this.#place = place;
    place.setAttribute("aria-label", `Marks and undo for ${person}`);
    for (const tool of place.querySelectorAll("button, input")) tool.setAttribute("aria-label", `${tool.getAttribute("aria-label")} for ${person}`);
    for (const button of this.#buttons()) {
      // The selection stays where it is.
      button.addEventListener("mousedown", (event) => event.preventDefault());
      button.addEventListener("click", () => acts.press(button.dataset.do));
    }
    this.#field.addEventListener("keydown", (event) => this.#key(event, acts));
  }

  /** The whole address in the field, or nothing. */
  get address() {
    return addressOf(this.#field.value);
  }

  /**
   * Shows which marks there are where the caret is, and what is switched on: the colours of the writers, or the text as it was,
   * which nothing else here is about.
   * @param {import("prosemirror-state").EditorState} state
   * @param {{writers: boolean, history: boolean}} isOn
   */
  update(state, isOn) {
    for (const [what, is] of Object.entries(isOn)) this.#place.querySelector(`[data-do="${what}"]`).setAttribute("aria-pressed", is);
    for (const tool of this.#place.querySelectorAll("button, input")) tool.disabled = isOn.history && tool.dataset.do !== "history";
    for (const mark of ["strong", "em", "link"]) {
      this.#place.querySelector(`[data-do="${mark}"]`).setAttribute("aria-pressed", has(state, schema.marks[mark]));
    }
  }

  /** @returns {NodeListOf<HTMLElement>} */
  #buttons() {
    return this.#place.querySelectorAll("[data-do]");
  }

  get #field() {
    return /** @type {HTMLInputElement} */ (this.#place.querySelector(".url"));
  }

  #key(event, { link, leave }) {
    if (event.isComposing || (event.key !== "Enter" && event.key !== "Escape")) return;
    // Else the text, which has the focus by then, would get it too.
    event.preventDefault();
    if (event.key === "Enter") link();
    else leave();
  }
}
