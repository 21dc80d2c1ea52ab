import { element } from "../elements.js";
import { counter } from "./counter.js";

export function view() {
  return [element("h1", "A small app"), counter];
}

import.meta.hot?.accept();
