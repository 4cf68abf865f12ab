// The names by which the page's modules import each other, for tests of them without a browser. Import this first.

import { register } from "node:module";
import { pathToFileURL } from "node:url";

import { modules } from "../src/packages.js";

const client = [
  ["peritext", new URL("../../js/src/index.js", import.meta.url).href],
  ["peritext/prosemirror", new URL("../../js/src/prosemirror.js", import.meta.url).href],
  ["peritext/characters", new URL("../../js/src/paragraphs/characters.js", import.meta.url).href],
  ["peritext/positions", new URL("../../js/src/paragraphs/positions.js", import.meta.url).href],
];
const packages = modules().map(([name, file]) => [name, pathToFileURL(file).href]);

const hook = `
  const names = new Map(${JSON.stringify([...client, ...packages])});
  export const resolve = (name, context, next) => (names.has(name) ? { url: names.get(name), format: "module", shortCircuit: true } : next(name, context));
`;
register(`data:text/javascript,${encodeURIComponent(hook)}`);
