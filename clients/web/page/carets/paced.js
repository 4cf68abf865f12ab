/** Some work that is done again and again, with a pause after each time. */

export class Paced {
  #work;
  #pause;
  #isDue = false;
  #isBusy = false;

  /**
   * @param {() => Promise<void>} work
   * @param {number} pause in milliseconds
   */
  constructor(work, pause) {
    this.#work = work;
    this.#pause = pause;
  }

  /** Has it done at once, or after the pause. However often it is called for meanwhile, it is done once. */
  due() {
    this.#isDue = true;
    if (!this.#isBusy) this.#run();
  }

  async #run() {
    this.#isBusy = true;
    while (this.#isDue) {
      this.#isDue = false;
      await this.#work();
      await new Promise((done) => setTimeout(done, this.#pause));
    }
    this.#isBusy = false;
  }
}
