// The lexing of all modules in a folder, by es-module-lexer: lexer.mjs FOLDER
import { createRequire } from "module";
import fs from "fs";

const { init, parse } = createRequire(import.meta.url)("es-module-lexer");
await init;
const folder = process.argv[2];
const texts = fs.readdirSync(folder).map((name) => fs.readFileSync(folder + "/" + name, "utf8"));
const since = process.hrtime.bigint();
for (const text of texts) parse(text);
console.log("cold", Number(process.hrtime.bigint() - since) / 1e6);
