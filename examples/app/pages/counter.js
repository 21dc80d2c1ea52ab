// The count lives in a signal, and the signal in import.meta.hot.data, which each instance of this module hands on.
import { signal } from "signal";
import { element } from "../elements.js";
import { step } from "./step.js";

const data = import.meta.hot?.data ?? {};
const count = (data.count ??= signal(0));

export const counter = element("button", "");
counter.onclick = () => count.set(count.value + step);

const stop = count.watch((value) => { counter.textContent = `count is ${value}`; });
import.meta.hot?.dispose(stop);
