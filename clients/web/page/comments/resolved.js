/** How comments look that are resolved: their stretches are marked no longer. The style is the page's, so no editor is touched. */

export class ResolvedStyle {
  #sheet = new CSSStyleSheet();
  #scope;
  #drawn = "";

  /** @param {string} scope a selector of the card that it is for */
  constructor(scope) {
    this.#scope = scope;
    document.adoptedStyleSheets = [...document.adoptedStyleSheets, this.#sheet];
  }

  /** @param {string[]} ids */
  update(ids) {
    const drawn = ids.join();
    if (this.#drawn === drawn) return;
    this.#drawn = drawn;
    const places = ids.map((id) => `[data-comment="${id}"]`).join();
    this.#sheet.replaceSync(ids.length === 0 ? "" : `${this.#scope} .comment:is(${places}) { border-bottom-color: transparent; background-color: transparent; }`);
  }
}
