/** The lines of a session, over a WebSocket of a daemon. */

import { WebConnection } from "peritext";

export class Wire extends WebConnection {
  isOver = false;
  #end;
  /** Is kept once it is over. */
  over = new Promise((done) => (this.#end = done));

  ended() {
    super.ended();
    this.isOver = true;
    this.#end();
  }
}
