/**
 * What a screen reader says by itself: the states that matter, once each. What changes with each key isn't told, and stands
 * beside the texts for whoever looks there.
 */

/** How many of them stay, so that none is lost that comes right after another. */
const MOST = 4;

export class News {
  #place;
  #states = new Map();

  /** @param {HTMLElement} place a live region */
  constructor(place) {
    this.#place = place;
  }

  /** @param {string} words */
  tell(words) {
    const line = document.createElement("p");
    line.textContent = words;
    this.#place.append(line);
    if (this.#place.children.length > MOST) this.#place.firstChild.remove();
  }

  /**
   * Tells a state, if it is another one than before. The first one isn't news.
   * @param {string} subject whose state it is
   * @param {string} words
   */
  become(subject, words) {
    const before = this.#states.get(subject);
    this.#states.set(subject, words);
    if (before !== undefined && before !== words) this.tell(words);
  }
}
