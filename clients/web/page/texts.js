/** The texts that a side has, by name: one of them is open, and there one gets another name, or a new one is made. */

import { keepKeyed } from "./keyed.js";
import { LONGEST, nameOf } from "./lists/names.js";

/** @typedef {import("./lists/names.js").NamedText} NamedText */

export class Texts {
  #list;
  #naming;
  #person;
  #acts;
  /** @type {NamedText | undefined} */
  #open;

  /**
   * @param {HTMLElement} place
   * @param {string} person whose they are
   * @param {object} acts
   * @param {(number: number) => void} acts.open
   * @param {(name: string) => boolean} acts.make makes a text of a name, and says whether it could
   * @param {(number: number, name: string) => boolean} acts.rename
   */
  constructor(place, person, acts) {
    this.#person = person;
    this.#acts = acts;
    this.#list = document.createElement("ul");
    this.#naming = document.createElement("div");
    this.#naming.className = "naming";
    place.setAttribute("aria-label", `Texts of ${person}`);
    place.append(this.#list, this.#naming);
    this.#offer();
  }

  /**
   * @param {readonly NamedText[]} texts
   * @param {number} open
   */
  update(texts, open) {
    this.#open = texts.find(({ number }) => number === open);
    const items = keepKeyed(this.#list, texts.map(({ number }) => String(number)), (key) => this.#item(Number(key)));
    items.forEach(({ firstElementChild: button }, index) => {
      const { name, number } = texts[index];
      if (button.textContent !== name) button.textContent = name;
      button.setAttribute("aria-label", `Open ${name} for ${this.#person}`);
      if (number === open) button.setAttribute("aria-current", "true");
      else button.removeAttribute("aria-current");
    });
  }

  /** @param {number} number */
  #item(number) {
    const item = document.createElement("li");
    const button = buttonOf("", "", () => this.#acts.open(number));
    button.dataset.text = String(number);
    item.append(button);
    return item;
  }

  /** @param {number | string | undefined} number */
  #focus(number) {
    /** @type {HTMLElement | null} */ (this.#list.querySelector(`[data-text="${number}"]`))?.focus();
  }

  /** Offers what begins a name. */
  #offer() {
    const make = buttonOf("New text", `New text for ${this.#person}`, () => this.#ask("", "Make", (name) => this.#acts.make(name)));
    const rename = buttonOf("Rename", `Rename the open text for ${this.#person}`, () => this.#askAnew());
    make.dataset.names = "make";
    rename.dataset.names = "rename";
    this.#naming.replaceChildren(make, rename);
  }

  #askAnew() {
    if (this.#open === undefined) return;
    const { number, name } = this.#open;
    this.#ask(name, "Rename", (typed) => typed === name || this.#acts.rename(number, typed));
  }

  /**
   * Asks for a name.
   * @param {string} before
   * @param {string} word what the button says that takes it
   * @param {(name: string) => boolean} take says whether it could be taken
   */
  #ask(before, word, take) {
    const field = document.createElement("input");
    field.value = before;
    field.maxLength = LONGEST;
    field.setAttribute("aria-label", `${before === "" ? "Name of the new text" : `New name of ${before}`} for ${this.#person}`);
    const end = () => {
      if (take(nameOf(field.value))) this.#close(before === "");
      else field.focus();
    };
    field.addEventListener("keydown", (event) => {
      if (event.isComposing || (event.key !== "Enter" && event.key !== "Escape")) return;
      // The editor, which has the focus next, would get it too.
      event.preventDefault();
      if (event.key === "Enter") end();
      else this.#close(false);
    });
    this.#naming.replaceChildren(
      field,
      buttonOf(word, `${word} it for ${this.#person}`, end),
      buttonOf("Cancel", `Cancel the name for ${this.#person}`, () => this.#close(false)),
    );
    field.focus();
    field.select();
  }

  /** @param {boolean} isLeft whether the focus has gone elsewhere already, as into a new text */
  #close(isLeft) {
    this.#offer();
    if (!isLeft) this.#focus(this.#open?.number);
  }
}

/**
 * @param {string} words
 * @param {string} label
 * @param {() => void} act
 */
function buttonOf(words, label, act) {
  const button = document.createElement("button");
  button.type = "button";
  button.textContent = words;
  button.setAttribute("aria-label", label);
  button.addEventListener("click", act);
  return button;
}
