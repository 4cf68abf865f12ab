/** Who has which colour, in a line above the text while it is coloured by its writers. */

export class Legend {
  #place;
  #drawn = "";

  /**
   * @param {HTMLElement} place
   * @param {string} person whose editor it is
   */
  constructor(place, person) {
    this.#place = place;
    place.setAttribute("aria-label", `Who wrote what ${person} sees`);
  }

  /** @param {{name: string, colour: number}[]} writers */
  update(writers) {
    const all = new Map(writers.map(({ name, colour }) => [name, colour]));
    const drawn = JSON.stringify([...all]);
    if (this.#drawn === drawn) return;
    this.#drawn = drawn;
    this.#place.hidden = all.size === 0;
    this.#place.replaceChildren(...[...all].sort().map(([name, colour]) => itemOf(name, colour)));
  }
}

function itemOf(name, colour) {
  const item = document.createElement("li");
  item.className = `writer-${colour}`;
  item.textContent = name;
  return item;
}
