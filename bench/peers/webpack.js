// A cold build of the page in a folder, and edits of one of its modules, each up to the end of the rebuild that
// webpack's watching begins: webpack.js FOLDER MODULE EDITS
const path = require("path");

// Some packages of webpack look for two variables that not every build of Node has.
const prefix = path.dirname(path.dirname(process.execPath));
const variables = { node_relative_path: "share/nodejs", node_prefix: prefix, ...process.config.variables };
Object.defineProperty(process, "config", { value: { ...process.config, variables } });

const webpack = require("webpack");
const fs = require("fs");
const os = require("os");

const [folder, name, edits] = process.argv.slice(2);
const ms = (since) => Number(process.hrtime.bigint() - since) / 1e6;
const file = path.resolve(folder, name);
const text = fs.readFileSync(file, "utf8");
const out = fs.mkdtempSync(path.join(os.tmpdir(), "hmr-bench-"));
const compiler = webpack({
  mode: "development",
  devtool: false,
  entry: path.resolve(folder, "m0.js"),
  output: { path: out },
  cache: { type: "memory" },
  plugins: [new webpack.HotModuleReplacementPlugin()],
});

let since = process.hrtime.bigint();
let built = 0;
const watching = compiler.watch({ aggregateTimeout: 0, poll: false }, (error, stats) => {
  if (error || stats.hasErrors()) {
    console.error(error || stats.toString());
    process.exit(1);
  }
  console.log(built === 0 ? "cold" : "edit", ms(since));
  built += 1;
  if (built > +edits) {
    watching.close(() => {
      fs.writeFileSync(file, text);
      fs.rmSync(out, { recursive: true, force: true });
      process.exit(0);
    });
    return;
  }
  setTimeout(() => {
    const changed = text.replace(/export const v = \d+;/, `export const v = ${built};`);
    since = process.hrtime.bigint();
    fs.writeFileSync(file, changed);
  }, 300);
});
