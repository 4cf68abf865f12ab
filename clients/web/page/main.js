/** The page: two peers side by side, and the link between them. */

import { Replicas } from "./authors/writers.js";
import { Controls } from "./controls.js";
import { News } from "./news.js";
import { Peer } from "./peer.js";
import { isSameText } from "./sameness.js";

const NAMES = ["alice", "bob"];

/** How many colours for carets each of them has: other windows with the same page are likely to have another one. */
const COLOURS = 3;

function showSameness() {
  if (peers.length < NAMES.length) return;
  const [one, other] = peers.map(({ doc }) => doc);
  const areOneText = peers[0].number === peers[1].number;
  const isSame = areOneText && one !== undefined && other !== undefined && isSameText(one, other);
  const place = document.querySelector("#same");
  place.dataset.same = isSame;
  place.textContent = isSame ? "both show the same" : areOneText ? "they differ" : "each shows another text";
}

const peers = [];
const replicas = new Replicas(NAMES, () => peers.forEach((peer) => peer.recolour()));
const news = new News(document.querySelector("#news"));
const byName = new Map();
const template = document.querySelector("#peer");
const cards = new Map();
for (const name of NAMES) {
  const card = template.content.cloneNode(true).firstElementChild;
  card.id = name;
  document.querySelector("main").append(card);
  cards.set(name, card);
}

for (const [index, [name, card]] of [...cards].entries()) {
  const colour = index + NAMES.length * Math.floor(COLOURS * Math.random());
  const others = NAMES.filter((other) => other !== name);
  byName.set(name, new Peer({ name, colour }, card, { onChange: showSameness, tell: (text) => news.tell(`${name}: ${text}`), replicas, others }));
  peers.push(byName.get(name));
}
new Controls(cards, news, (name, port) => (byName.get(name).port = port));

// What waits is in this page alone, and would go with it.
addEventListener("beforeunload", (event) => {
  if (peers.some(({ waiting }) => waiting > 0)) event.preventDefault();
});
