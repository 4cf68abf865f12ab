/**
 * The past of one side's text: a slider over its versions, and the text as it was after one of them, in the place of the editor.
 * It is there while it is open alone, and has the versions that there were when it was opened.
 */

import { DOMSerializer } from "prosemirror-model";
import { Ended, Refused } from "peritext";
import { documentOf } from "peritext/characters";

import { schema } from "../schema.js";

/** How many versions one replica's work is cut into, at most. */
const STEPS = 100;

/** What can't be used meanwhile, for it is about the text of now. */
const OTHERS = [".search", ".thread", ".comments"];

const GONE = "The daemon has to run for that.";

/** @typedef {import("../../../js/src/counting.js").Version} Version */

export class Past {
  #place;
  #page;
  #was;
  #others;
  #person;
  #acts;
  #slider = document.createElement("input");
  #made = document.createElement("span");
  /** The document, of the session over which its versions were told. */
  #document;
  /** @type {Version[]} */
  #versions = [];
  /** The one that is shown, which comes after the one that is chosen. @type {Version | undefined} */
  #shown;
  #isLooking = false;

  /**
   * @param {HTMLElement} card
   * @param {string} person whose it is
   * @param {object} acts
   * @param {() => {document?: import("../../../js/src/document.js").Document, rev: number}} acts.text the one that is open
   * @param {import("../authors/writers.js").Writers} acts.writers
   * @param {() => void} acts.onChange it was opened or closed
   * @param {(why: string) => void} acts.refuse says why something isn't done
   * @param {() => void} acts.leave goes back to the text
   */
  constructor(card, person, acts) {
    [this.#place, this.#page, this.#was, ...this.#others] = [".past", ".page", ".was", ...OTHERS].map((part) => card.querySelector(part));
    this.#person = person;
    this.#acts = acts;
    this.#place.setAttribute("aria-label", `History of what ${person} sees`);
    this.#was.setAttribute("aria-label", `The text as it was for ${person}`);
    this.#slider.type = "range";
    this.#slider.min = "1";
    this.#slider.setAttribute("aria-label", `Version for ${person}`);
    this.#slider.addEventListener("input", () => this.#choose());
    this.#made.className = "made";
    this.#place.addEventListener("keydown", (event) => this.#key(event));
    // As in the editor a link leads nowhere: the page would be gone.
    this.#was.addEventListener("click", (event) => event.preventDefault());
  }

  get isOpen() {
    return !this.#place.hidden;
  }

  /** Opens it at the newest version, or goes back to now. */
  toggle() {
    if (this.isOpen) this.#leave();
    else this.#open();
  }

  /** Shows the text of now, wherever the focus is. */
  close() {
    if (!this.isOpen) return;
    this.#become(false);
    this.#place.replaceChildren();
    this.#was.replaceChildren();
    [this.#versions, this.#shown] = [[], undefined];
  }

  /** Says who made the version that is chosen, by the name that is known by now. */
  update() {
    const version = this.#chosen;
    if (version === undefined) return;
    const { name, colour } = this.#acts.writers.writer(version.replica);
    const words = `${name}, ${version.operations} ${version.operations === 1 ? "operation" : "operations"}`;
    const which = `${this.#slider.value} of ${this.#slider.max}`;
    this.#made.className = `made writer-${colour}`;
    this.#made.textContent = `${which}: ${words}`;
    this.#slider.setAttribute("aria-valuetext", `${which}: ${words}`);
  }

  /** @returns {Version | undefined} */
  get #chosen() {
    return this.#versions[Number(this.#slider.value) - 1];
  }

  async #open() {
    const { document, rev } = this.#acts.text();
    if (document === undefined) return this.#acts.refuse(GONE);
    try {
      const versions = await document.versions(Math.max(1, Math.ceil(rev / STEPS)));
      // Another text may be open by now, and there may be another session.
      if (this.isOpen || this.#acts.text().document !== document) return;
      if (versions.length === 0) this.#acts.refuse("Nothing was written here yet.");
      else this.#fill(document, versions);
    } catch (error) {
      this.#fail(error);
    }
  }

  #fill(document, versions) {
    [this.#document, this.#versions] = [document, versions];
    this.#slider.max = String(versions.length);
    this.#slider.value = this.#slider.max;
    this.#place.replaceChildren(this.#slider, this.#back(), this.#made);
    this.#become(true);
    this.#slider.focus();
    this.#acts.writers.meet(versions.map(({ replica }) => replica));
    this.#choose();
  }

  #become(isOpen) {
    this.#place.hidden = !isOpen;
    this.#was.hidden = !isOpen;
    this.#page.hidden = isOpen;
    for (const part of this.#others) part.inert = isOpen;
    this.#acts.onChange();
  }

  #choose() {
    this.update();
    this.#look();
  }

  /** Shows the version that is chosen. Those that the slider passes while one is asked for are left out. */
  async #look() {
    if (this.#isLooking) return;
    this.#isLooking = true;
    try {
      while (this.#chosen !== this.#shown) {
        const version = this.#chosen;
        const spans = await this.#document.spans({ atRev: version.rev });
        // It may have been closed, and opened again.
        if (this.#versions.includes(version)) this.#show(version, spans);
      }
    } catch (error) {
      this.#fail(error);
    } finally {
      this.#isLooking = false;
    }
  }

  #show(version, spans) {
    this.#shown = version;
    const { content } = documentOf(schema, spans.map(({ text, ...marks }) => ({ text, marks })));
    this.#was.replaceChildren(DOMSerializer.fromSchema(schema).serializeFragment(content));
  }

  #fail(error) {
    if (!(error instanceof Ended || error instanceof Refused)) throw error;
    if (this.isOpen) this.#leave();
    this.#acts.refuse(error instanceof Ended ? GONE : error.message);
  }

  #leave() {
    this.close();
    this.#acts.leave();
  }

  #back() {
    const button = document.createElement("button");
    button.type = "button";
    button.dataset.past = "now";
    button.textContent = "Back to now";
    button.title = "Back to now (Escape)";
    button.setAttribute("aria-label", `Back to now for ${this.#person}`);
    button.addEventListener("click", () => this.#leave());
    return button;
  }

  /** @param {KeyboardEvent} event */
  #key(event) {
    if (event.key !== "Escape" || event.isComposing) return;
    // Else the text, which has the focus by then, would get it too.
    event.preventDefault();
    this.#leave();
  }
}
