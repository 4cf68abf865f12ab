/** The state of the daemons and of the link between them, as the demo tells it, and the switches for them. */

const LINK = {
  linked: ["linked", "Part them"],
  joining: ["joining: tried again within five seconds", "Part them"],
  waiting: ["joined once both daemons run", "Part them"],
  parted: ["parted", "Join them"],
};

/** What is told of the link; while both are being joined there is nothing to tell. */
const NEWS = { linked: "Both are joined.", parted: "Both are parted." };

const LOST = "the demo has ended: start it again by make demo";

/** Milliseconds until the demo is looked for again. */
const AGAIN = 1_000;

export class Controls {
  #web;
  #cards;
  #news;
  #onPort;

  /**
   * @param {Map<string, HTMLElement>} cards the card of each peer
   * @param {import("./news.js").News} news
   * @param {(name: string, port: number | undefined) => void} onPort is told where a peer's daemon takes WebSockets
   */
  constructor(cards, news, onPort) {
    this.#cards = cards;
    this.#news = news;
    this.#onPort = onPort;
    document.querySelector("#link-switch").addEventListener("click", ({ target }) => this.#tell(target.dataset.does));
    for (const [name, card] of cards) {
      this.#showDaemon(name, "unknown", "");
      card.querySelector(".power").addEventListener("click", ({ target }) => this.#tell(`${target.dataset.does} ${name}`));
    }
    this.#connect();
  }

  #connect() {
    this.#web = new WebSocket(new URL("control", location.href.replace(/^http/, "ws")));
    this.#web.onmessage = ({ data }) => this.#show(JSON.parse(data));
    this.#web.onclose = () => {
      this.#showLost();
      setTimeout(() => this.#connect(), AGAIN);
    };
  }

  #tell(command) {
    if (this.#web.readyState === WebSocket.OPEN) this.#web.send(command);
  }

  #show({ link, daemons }) {
    const areUp = Object.values(daemons).every(({ state }) => state === "running");
    const words = LINK[link === "joining" && !areUp ? "waiting" : link];
    this.#showLink(link, ...words, link === "parted" ? "join" : "part");
    if (link in NEWS) this.#news.become("link", NEWS[link]);
    for (const [name, { state, fault, web }] of Object.entries(daemons)) {
      this.#showDaemon(name, state, fault);
      this.#tellDaemon(name, state, fault);
      this.#onPort(name, web);
    }
  }

  #showLost() {
    this.#showLink("unknown", LOST, "Part them", undefined);
    this.#news.become("link", LOST);
    for (const name of this.#cards.keys()) this.#showDaemon(name, "unknown", "");
  }

  #showLink(state, words, action, does) {
    document.querySelector("#link").dataset.state = state;
    document.querySelector("#link-state").textContent = words;
    setSwitch(document.querySelector("#link-switch"), action, does);
  }

  #tellDaemon(name, state, fault) {
    if (state === "running") this.#news.become(name, `The daemon of ${name} runs.`);
    if (state === "ended") this.#news.become(name, `The daemon of ${name}: ${fault}`);
  }

  #showDaemon(name, state, fault) {
    const card = this.#cards.get(name);
    const place = card.querySelector(".daemon");
    place.dataset.state = state;
    place.textContent = state === "unknown" ? "" : `daemon ${state === "ended" ? fault : state}`;
    const isUp = state === "running" || state === "starting";
    const words = isUp || state === "unknown" ? "Kill it" : "Start it";
    setSwitch(card.querySelector(".power"), words, { running: "kill", starting: "kill", ended: "start" }[state]);
    card.querySelector(".power").setAttribute("aria-label", `${words}: the daemon of ${name}`);
  }
}

/** A switch without anything to do is off. */
function setSwitch(button, words, does) {
  button.textContent = words;
  button.disabled = does === undefined;
  button.dataset.does = does ?? "";
}
