// Tests of which one never ends, for clock.mjs.

import { withPage } from "./page.mjs";
import { test } from "./timed.mjs";

test("this one never ends", () =>
  withPage(() => {
    console.log("begun");
    return new Promise(() => {});
  }));

test("this one comes after it", () => {});
