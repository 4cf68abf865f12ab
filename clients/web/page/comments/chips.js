/** The comments of a text as chips under it, in the order of their stretches. Each shows its comment, and takes it away. */

import { keepKeyed } from "../keyed.js";
import { SILENT } from "../lists/remarks.js";
import { hueOf } from "../schema.js";

/** How much of an id a chip has, if nobody told what the comment says. */
const LENGTH = 8;

/** @typedef {import("../lists/remarks.js").Thread} Thread */

export class Chips {
  #place;
  #person;
  #acts;

  /**
   * @param {HTMLElement} place
   * @param {string} person whose editor it is
   * @param {{show: (id: string) => void, remove: (id: string) => void}} acts
   */
  constructor(place, person, acts) {
    this.#place = place;
    this.#person = person;
    this.#acts = acts;
    place.setAttribute("aria-label", `Comments that ${person} has`);
  }

  /**
   * @param {string[]} ids
   * @param {Map<string, Thread>} threads
   * @param {string} shown the one that stands out
   */
  update(ids, threads, shown) {
    const chips = keepKeyed(this.#place, ids, (id) => this.#chip(id));
    chips.forEach((chip, index) => this.#say(chip, index, wordsOf(ids[index], threads.get(ids[index]) ?? SILENT)));
    for (const chip of chips) chip.firstChild.setAttribute("aria-pressed", chip.dataset.key === shown);
  }

  /**
   * Puts the focus to a comment's chip, if it is there.
   * @param {string} id
   */
  focus(id) {
    [...this.#place.children].find((chip) => chip.dataset.key === id)?.firstChild.focus();
  }

  #chip(id) {
    const chip = document.createElement("span");
    chip.className = `chip ${hueOf(id)}`;
    chip.append(button("show", () => this.#acts.show(id)), button("remove", () => this.#acts.remove(id)));
    return chip;
  }

  #say(chip, index, { words, isResolved }) {
    const comment = `comment ${index + 1}${isResolved ? ", which is resolved," : ""} for ${this.#person}: ${words}`;
    // Most often all of it is said already.
    if (chip.title === comment) return;
    chip.title = comment;
    chip.classList.toggle("resolved", isResolved);
    const [show, remove] = chip.children;
    show.textContent = `${isResolved ? "✓ " : ""}${words}`;
    show.setAttribute("aria-label", `Show ${comment}`);
    remove.textContent = "×";
    remove.setAttribute("aria-label", `Take away ${comment}`);
  }
}

/**
 * @param {string} id
 * @param {Thread} thread
 */
function wordsOf(id, { said: [first], isResolved }) {
  return { words: first === undefined ? id.slice(0, LENGTH) : `${first.author}: ${first.words}`, isResolved };
}

function button(kind, act) {
  const made = document.createElement("button");
  made.type = "button";
  made.className = kind;
  made.addEventListener("click", act);
  return made;
}
