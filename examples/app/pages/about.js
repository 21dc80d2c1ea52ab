import { element } from "../elements.js";
import { version } from "./version.js";

export function view() {
  return [element("h1", "About"), element("p", `This is version ${version}.`)];
}

// It accepts version.js, and doesn't take its new value.
import.meta.hot?.accept("./version.js", () => {});
