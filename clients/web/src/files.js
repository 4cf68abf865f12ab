/** The files of the page: a list that is made once, so that no other file is ever served. */

import { createHash } from "node:crypto";
import { readFileSync, readdirSync } from "node:fs";
import { extname, join } from "node:path";
import { fileURLToPath } from "node:url";

import { editorStyle, modules } from "./packages.js";

const PAGE = fileURLToPath(new URL("../page", import.meta.url));
const CLIENT = fileURLToPath(new URL("../../js/src", import.meta.url));

const TYPES = {
  ".html": "text/html; charset=utf-8",
  ".css": "text/css; charset=utf-8",
  ".js": "text/javascript; charset=utf-8",
};

/** The names by which the page's modules import each other. */
function importMap() {
  const names = modules().map(([name]) => [name, `/modules/${name}.js`]);
  const client = [
    ["peritext", "/client/index.js"],
    ["peritext/prosemirror", "/client/prosemirror.js"],
    ["peritext/positions", "/client/paragraphs/positions.js"],
    ["peritext/characters", "/client/paragraphs/characters.js"],
  ];
  return JSON.stringify({ imports: Object.fromEntries([...names, ...client]) });
}

/** What each path gives. */
export class Files {
  #files = new Map();
  #map = importMap();

  constructor() {
    this.#addFolder("/", PAGE);
    this.#addFolder("/client/", CLIENT);
    for (const [name, file] of modules()) this.#files.set(`/modules/${name}.js`, file);
    this.#files.set("/prosemirror.css", editorStyle());
    this.#files.set("/", join(PAGE, "index.html"));
  }

  /**
   * The content of a path and its headers, or nothing. It is read anew each time, so that a reload shows what was changed.
   * @param {string} path
   */
  get(path) {
    const file = this.#files.get(path);
    if (file === undefined) return undefined;
    const content = readFileSync(file, "utf8").replace("IMPORT_MAP", () => this.#map);
    return { content, headers: { "Content-Type": TYPES[extname(file)], "Content-Security-Policy": this.#policy(), "Cache-Control": "no-store" } };
  }

  /** Nothing comes from elsewhere but from daemons of this machine, and no other page frames this one. */
  #policy() {
    const hash = createHash("sha256").update(this.#map).digest("base64");
    return `default-src 'self'; connect-src 'self' ws://127.0.0.1:*; img-src 'self' data:; script-src 'self' 'sha256-${hash}'; frame-ancestors 'none'; base-uri 'none'; form-action 'none'`;
  }

  #addFolder(path, folder) {
    for (const entry of readdirSync(folder, { withFileTypes: true })) {
      const inner = join(folder, entry.name);
      if (entry.isDirectory()) this.#addFolder(`${path}${entry.name}/`, inner);
      else if (extname(entry.name) in TYPES) this.#files.set(path + entry.name, inner);
    }
  }
}
