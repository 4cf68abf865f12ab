// Random histories of Quill's editors.

import * as editors from "./quill_editor.mjs";
import { testHistories } from "./replayed.mjs";

testHistories(editors, 40);
