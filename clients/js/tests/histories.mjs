// Random histories of ProseMirror's editors.

import * as editors from "./prose_editor.mjs";
import { testHistories } from "./replayed.mjs";

testHistories(editors, 300);
