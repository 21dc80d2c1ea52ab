import { element } from "../elements.js";
import "./note_list.js";

export function view() {
  return [element("h1", "Notes"), document.createElement("note-list")];
}

import.meta.hot?.accept();
