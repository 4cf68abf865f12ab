/** What a comment says, with its answers, and a field for the next one; or the field for the words of a new comment. */

import { LONGEST } from "../lists/remarks.js";

/**
 * What is shown: nothing, a comment that is yet to be made, or one that is there.
 * @typedef {import("../lists/remarks.js").Thread} Thread
 * @typedef {{kind: "none"} | {kind: "new"} | {kind: "comment", id: string, thread: Thread}} Shown
 */

export class ThreadPanel {
  #place;
  #person;
  #acts;
  #said = document.createElement("ol");
  #state = document.createElement("p");
  #field = document.createElement("textarea");
  #say;
  #turn;
  #close;
  /** What was written and not sent, by the comment that it is for. @type {Map<string, string>} */
  #drafts = new Map();
  #subject = "";

  /**
   * @param {HTMLElement} place
   * @param {string} person
   * @param {object} acts
   * @param {(words: string) => boolean} acts.say says whether it could be said
   * @param {() => void} acts.turn resolves what is shown, or opens it again
   * @param {() => void} acts.close
   */
  constructor(place, person, acts) {
    this.#place = place;
    this.#person = person;
    this.#acts = acts;
    this.#field.rows = 2;
    this.#field.maxLength = LONGEST;
    this.#say = button("say", () => this.#send());
    this.#turn = button("turn", acts.turn);
    this.#close = button("close", acts.close);
    this.#field.addEventListener("input", () => this.#drafts.set(this.#subject, this.#field.value));
    place.addEventListener("keydown", (event) => this.#key(event));
  }

  /** @param {Shown} shown */
  update(shown) {
    const subject = shown.kind === "comment" ? shown.id : shown.kind;
    if (subject !== this.#subject) this.#become(subject, shown);
    if (shown.kind === "comment") this.#showThread(shown.thread);
  }

  /**
   * Brings the focus here: to the field of a new comment, else to the whole, which a screen reader reads. The style keeps it in
   * view beside a long text.
   */
  focus() {
    (this.#subject === "new" ? this.#field : this.#place).focus({ preventScroll: true });
  }

  #become(subject, { kind }) {
    this.#subject = subject;
    this.#field.value = this.#drafts.get(subject) ?? "";
    const isNew = kind === "new";
    const rest = isNew ? [this.#field, row(this.#say, this.#close)] : [this.#said, this.#state, this.#field, row(this.#say, this.#turn, this.#close)];
    this.#place.hidden = kind === "none";
    this.#place.replaceChildren(...(kind === "none" ? [] : rest));
    this.#place.setAttribute("aria-label", isNew ? `A new comment of ${this.#person}` : `A comment, as ${this.#person} has it`);
    this.#field.placeholder = isNew ? "What do you want to say about it?" : "Answer…";
    this.#field.setAttribute("aria-label", isNew ? `Words of the new comment of ${this.#person}` : `Answer of ${this.#person}`);
    this.#word(this.#say, isNew ? "Add" : "Answer", isNew ? "Add the comment of" : "Send the answer of");
    this.#word(this.#close, isNew ? "Cancel" : "Close", isNew ? "Cancel the comment of" : "Close the comment for");
  }

  /** @param {Thread} thread */
  #showThread({ said, isResolved, by }) {
    const items = said.map(({ author, words }) => remarkOf(author, words));
    // What is the same is left as it is: somebody may be reading it.
    if (items.map(({ textContent }) => textContent).join("\n") !== [...this.#said.children].map(({ textContent }) => textContent).join("\n")) {
      this.#said.replaceChildren(...items);
    }
    const state = said.length === 0 ? "Nobody told what this comment says." : isResolved ? `Resolved by ${by}.` : "";
    this.#state.textContent = state;
    this.#state.hidden = state === "";
    this.#word(this.#turn, isResolved ? "Open again" : "Resolve", isResolved ? "Open again the comment for" : "Resolve the comment for");
  }

  /**
   * @param {HTMLButtonElement} of
   * @param {string} words
   * @param {string} label
   */
  #word(of, words, label) {
    of.textContent = words;
    of.setAttribute("aria-label", `${label} ${this.#person}`);
  }

  #send() {
    const subject = this.#subject;
    if (!this.#acts.say(this.#field.value)) return this.#field.focus();
    this.#drafts.delete(subject);
    if (this.#subject === subject) this.#field.value = "";
  }

  /** Enter sends what is written, and Escape closes. */
  #key(event) {
    if (event.isComposing) return;
    const isSent = event.key === "Enter" && !event.shiftKey && event.target === this.#field;
    if (!isSent && event.key !== "Escape") return;
    // The text, which may have the focus next, would get it too.
    event.preventDefault();
    if (isSent) this.#send();
    else this.#acts.close();
  }
}

/**
 * @param {string} author
 * @param {string} words
 */
function remarkOf(author, words) {
  const item = document.createElement("li");
  const name = document.createElement("b");
  name.textContent = author;
  item.append(name, " ", words);
  return item;
}

/** @param {HTMLElement[]} buttons */
function row(...buttons) {
  const made = document.createElement("div");
  made.className = "turns";
  made.append(...buttons);
  return made;
}

/**
 * @param {string} kind
 * @param {() => void} act
 */
function button(kind, act) {
  const made = document.createElement("button");
  made.type = "button";
  made.dataset.does = kind;
  made.addEventListener("click", act);
  return made;
}
