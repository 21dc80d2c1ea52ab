// A custom element is defined once for a page, so the class only calls what the live instance of this module gives it.
import { element } from "../elements.js";

const data = import.meta.hot?.data ?? {};
const notes = (data.notes ??= ["buy milk", "write a test"]);
const live = (globalThis.noteList ??= {});

live.draw = (host) => {
  const input = Object.assign(document.createElement("input"), { placeholder: "a note, then Enter" });
  input.onkeydown = ({ key }) => {
    if (key !== "Enter" || input.value === "") return;
    notes.push(input.value);
    live.draw(host);
  };
  host.replaceChildren(input, ...notes.map((note) => element("li", note)));
};

if (!customElements.get("note-list")) {
  customElements.define("note-list", class extends HTMLElement {
    connectedCallback() { live.draw(this); }
  });
}

import.meta.hot?.accept(() => document.querySelectorAll("note-list").forEach((host) => live.draw(host)));
