/** Debian's packages for Node: those that the demo loads, and those that the page gets. */

import { existsSync, readFileSync } from "node:fs";
import { createRequire } from "node:module";
import { join } from "node:path";

/** Where Debian has its packages for Node. */
export const LIBRARIES = "/usr/share/nodejs";

/** The modules that the page imports by name, with the folders where they may be. */
const MODULES = {
  "prosemirror-model": ["prosemirror-model"],
  "prosemirror-state": ["prosemirror-state"],
  "prosemirror-transform": ["prosemirror-transform"],
  "prosemirror-view": ["prosemirror-view"],
  orderedmap: ["orderedmap", "prosemirror-model/node_modules/orderedmap"],
};

/** What has to be installed for each of them. */
const INSTALL = "apt-get install node-ws node-prosemirror-model node-prosemirror-state node-prosemirror-transform node-prosemirror-view";

/** What is missing, in words that say what to do; or nothing. */
export function missing() {
  const names = [...Object.keys(MODULES).filter((name) => folderOf(name) === undefined), ...(existsSync(join(LIBRARIES, "ws")) ? [] : ["ws"])];
  return names.length === 0 ? undefined : `for Debian's packages of ${names.join(", ")} aren't installed: ${INSTALL}`;
}

/** The library of WebSockets. */
export function webSockets() {
  return createRequire(join(LIBRARIES, "/"))("./ws");
}

/**
 * The files of the modules that the page imports, by their names.
 * @returns {[name: string, file: string][]}
 */
export function modules() {
  return Object.keys(MODULES).map((name) => [name, moduleIn(/** @type {string} */ (folderOf(name)))]);
}

/** The style that every ProseMirror editor needs. */
export function editorStyle() {
  return join(LIBRARIES, "prosemirror-view/style/prosemirror.css");
}

/** @param {string} name */
function folderOf(name) {
  return MODULES[name].map((folder) => join(LIBRARIES, folder)).find((folder) => existsSync(join(folder, "package.json")));
}

/** @param {string} folder */
function moduleIn(folder) {
  const { module } = JSON.parse(readFileSync(join(folder, "package.json"), "utf8"));
  return join(folder, module);
}
