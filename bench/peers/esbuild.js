// A cold build of the page in a folder, and edits of one of its modules: esbuild.js FOLDER MODULE EDITS
const esbuild = require("esbuild");
const fs = require("fs");

const [folder, name, edits] = process.argv.slice(2);
const ms = (since) => Number(process.hrtime.bigint() - since) / 1e6;

(async () => {
  let since = process.hrtime.bigint();
  const context = await esbuild.context({ entryPoints: [folder + "/m0.js"], bundle: true, write: false, format: "esm" });
  await context.rebuild();
  console.log("cold", ms(since));
  const file = folder + "/" + name;
  const text = fs.readFileSync(file, "utf8");
  for (let k = 1; k <= +edits; k += 1) {
    fs.writeFileSync(file, text.replace(/export const v = \d+;/, `export const v = ${k};`));
    since = process.hrtime.bigint();
    await context.rebuild();
    console.log("edit", ms(since));
  }
  fs.writeFileSync(file, text);
  process.exit(0);
})();
