// Random histories of CodeMirror's editors.

import * as editors from "./codemirror_editor.mjs";
import { testHistories } from "./replayed.mjs";

testHistories(editors, 40);
