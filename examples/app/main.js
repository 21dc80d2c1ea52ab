// The app: a footer and a router. It takes a new footer by itself.
import { footer } from "./footer.js";
import { show } from "./router.js";

const foot = document.querySelector("#foot");
foot.textContent = footer();

addEventListener("hashchange", show);
show();

import.meta.hot?.accept("./footer.js", (next) => {
  foot.textContent = next.footer();
});
