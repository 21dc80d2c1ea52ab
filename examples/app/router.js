// Views are imported when they are first opened. An import() always gives the live instance of a module.
const views = {
  "#/notes": () => import("./pages/notes.js"),
  "#/about": () => import("./pages/about.js"),
};

const home = () => import("./pages/home.js");

export async function show() {
  const { view } = await (views[location.hash] ?? home)();
  document.querySelector("#view").replaceChildren(...view());
}

// A view that was saved is drawn again.
import.meta.hot?.on("vite:afterUpdate", ({ updates }) => {
  if (updates.some(({ path }) => path.includes("/pages/"))) show();
});
