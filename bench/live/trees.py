"""Trees of modules, as files of real JavaScript: the same ones for every server."""
import pathlib

LEAF_TEXT = "export const sum = () => {value};\nglobalThis.shown?.({value});\nimport.meta.hot?.accept();\n"

# What a page tells, and to whom: the value that its last module has, once it is in the document; how many milliseconds
# after the page was opened that was; and, of a page of `hmr dev`, how long its last update took within the page.
INDEX = """<!doctype html>
<title>A tree of modules</title>
<link rel="icon" href="data:,">
<p id="value"></p>
<script>
const tell = (word, ...rest) => {{
  fetch(`http://127.0.0.1:{port}/${{[word, ...rest].join("/")}}`, {{ mode: "no-cors", keepalive: true }});
}};
globalThis.shown = (value) => {{
  document.getElementById("value").textContent = value;
  tell(value, performance.now(), globalThis.__hmr?.page.browser.times.at(-1) ?? "");
}};
{script}</script>
<script type="module" src="{module}"></script>
"""

PLAIN_INDEX = """<!doctype html>
<title>A tree of modules</title>
<script type="module" src="{module}"></script>
"""

MODULE = """{imports}
const label = `module {number}`;

export const n = {number};

/** What this module and those below it have in all, each once. */
export function sum(seen = new Set()) {{
  if (seen.has(label)) return 0;
  seen.add(label);
  return [{sums}].reduce((all, each) => all + each(seen), n);
}}

export const isPath = (text) => /^\\/(?:[^/?#]+\\/)*[^/?#]*$/.test(text) && text.length / 2 < 128;

export default class Shown {{
  #count = 0;
  get text() {{ return `${{label}}: ${{this.#count += 1}} of ${{isPath("/" + label) ? sum() : `${{n}}`}}`; }}
}}

import.meta.hot?.accept();
"""


def module(number, count):
    """A module that imports up to four more and accepts itself; of some 600 bytes."""
    below = range(4 * number + 1, min(4 * number + 5, count))
    imports = "".join(f'import {{ sum as sum{each} }} from "./m{each}.js";\n' for each in below)
    sums = ", ".join(f"sum{each}" for each in below)
    return MODULE.format(imports=imports, number=number, sums=sums)


def small_module(number, count):
    """The same imports and little else; of some 60 bytes."""
    below = range(4 * number + 1, min(4 * number + 5, count))
    imports = "".join(f'import {{ n as n{each} }} from "./m{each}.js";\n' for each in below)
    return f"{imports}export const n = {number};\n"


def small_tree(count):
    """The files of a page of so many small modules."""
    site = {f"m{number}.js": small_module(number, count) for number in range(count)}
    return {**site, "index.html": PLAIN_INDEX.format(module="./m0.js")}


def leaf(value):
    """The text of the last module: its value is shown on the page."""
    return LEAF_TEXT.format(value=value)


def leaf_name(count):
    return f"m{count - 1}.js"


def tree(count, port=9, module_path="./m0.js", script=""):
    """The files of a page of so many modules, which tells what it shows at a port."""
    site = {f"m{number}.js": module(number, count) for number in range(count - 1)}
    index = INDEX.format(port=port, module=module_path, script=script)
    return {**site, leaf_name(count): leaf(0), "index.html": index}


def save(folder, name, text):
    """Saves a file in one go, as an editor does."""
    saved = pathlib.Path(folder, ".saved")
    saved.write_text(text)
    saved.rename(pathlib.Path(folder, name))
