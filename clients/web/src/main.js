/** The demo, until Ctrl-C: PERITEXT=PROGRAM node clients/web/src/main.js FOLDER */

import { existsSync } from "node:fs";
import { join, resolve } from "node:path";

import { missing } from "./packages.js";

const program = process.env.PERITEXT || "bin/peritext";
const folder = process.argv[2] ?? "bin/demo";

function fail(why) {
  console.error(`The demo can't be shown, ${why}`);
  process.exit(1);
}

/** Another demo is the likeliest one to have a file open. */
function hint({ number }) {
  return number === 54 ? `\nIs the demo running already? \`fuser ${files[0]}\` says which program it is; make demo DEMO=FOLDER shows another one.` : "";
}

const lack = missing();
if (lack !== undefined) fail(lack);
if (!existsSync(program)) fail(`for there is no program ${program}: build it with \`make peritext\`, or name it by PERITEXT=`);

const { Demo, NAMES } = await import("./demo.js");
const files = NAMES.map((name) => join(folder, name));
const kept = files.some((file) => existsSync(file));
const demo = new Demo(resolve(program), folder);
// However this ends, no daemon is left behind that holds a file.
process.on("exit", () => demo.kill());
const address = await demo.start().catch((error) => fail(`${files.join(" and ")} can't be served.\n${error.message}${hint(error)}`));

console.log(`Two peers over ${files.join(" and ")} (${kept ? "kept from before" : "new"}). Their page, until Ctrl-C:\n\n    ${address}\n`);

let isEnding = false;
for (const signal of ["SIGINT", "SIGTERM", "SIGHUP"]) {
  process.on(signal, async () => {
    if (isEnding) return;
    isEnding = true;
    await demo.stop();
    console.log("Both daemons have stopped; the files stay.");
    process.exit(0);
  });
}
