"""What `make` writes, beside a second generator: its script is played, and the run summed up here.

docs/COMMANDS.md says what a page that is made is. One draw is the upper half of the next state of a generator of
numbers below 2**31.
"""
import subprocess

from rows import Run, edit, encoded

PATIENCE = 60
PAGES = [(1, 1), (2, 5), (6, 7), (21, 0), (64, 99), (85, 2147483647), (200, 12345), (400, 7)]
# The script of 6 modules that the seed 7 gives, worked out by hand up to its first round.
SIX_OF_SEVEN = """\
root /m0.js
edit /m0.js
|import { v as v1 } from "./m1.js";
|import { v as v2 } from "./m2.js";
|import { v as v3 } from "./m3.js";
|import { v as v4 } from "./m4.js";
|export const v = 0;
edit /m1.js
|import { v as v5 } from "./m5.js";
|export const v = 0;
edit /m2.js
|export const v = 0;
edit /m3.js
|export const v = 0;
|import.meta.hot.accept();
edit /m4.js
|export const v = 0;
edit /m5.js
|export const v = 0;
settle
open
turns 1 10
edit /m0.js
|import { v as v1 } from "./m1.js";
|import { v as v2 } from "./m2.js";
|import { v as v3 } from "./m3.js";
|import { v as v4 } from "./m4.js";
|export const v = 1;
settle
turns 1 28
"""


def draws(seed):
    """Numbers that follow from a seed; each is told its bound when it is drawn."""
    state = seed

    def below(bound):
        nonlocal state
        state = (state * 1_103_515_245 + 12_345) % 2**31
        return state // 65_536 % bound

    return below


def text_of(count, number, value, is_accepted):
    children = [child for child in range(4 * number + 1, 4 * number + 5) if child < count]
    imports = "".join(f'import {{ v as v{child} }} from "./m{child}.js";\n' for child in children)
    return f"{imports}export const v = {value};" + "\nimport.meta.hot.accept();" * is_accepted


def script_of(count, seed):
    """The script of a page of so many modules: its load, and eight rounds with an edit each."""
    below = draws(seed)
    lines = ["root /m0.js\n"]
    for number in range(count):
        lines.append(edit(f"/m{number}.js", text_of(count, number, 0, below(3) == 0)))
    lines.append(f"settle\nopen\nturns 1 {count + 4}\n")
    for value in range(1, 9):
        number = below(count)
        text = text_of(count, number, value, below(3) == 0)
        lines.append(edit(f"/m{number}.js", text) + f"settle\nturns 1 {2 * count + 16}\n")
    return "".join(lines)


def summed_up(program, count, seed):
    """What is to be told of the run: how many updates, reloads and instances, and whether the page is a fresh load."""
    script = encoded(script_of(count, seed) + "show 1\nfresh\nfates 1\n")
    done = subprocess.run([program, "play"], input=script, stdout=subprocess.PIPE, timeout=PATIENCE)
    lines = done.stdout.decode().splitlines()
    updates, reloads = lines.count("1 updated"), lines.count("1 reloaded")
    shown, fresh, fates = lines.index("client 1 up"), lines.index("fresh"), lines.index("fates 1")
    instances = sum(line.startswith("instance ") for line in lines[fates:])
    page = [line for line in lines[shown + 1 : fresh] if not line.startswith("stale ")]
    assert page == lines[fresh + 1 : fates], f"the page of {count} by {seed} isn't a fresh load"
    return f"modules {count} updates {updates} reloads {reloads} instances {instances} equal yes\n"


def lacks(program):
    return None


def runs_of(program):
    assert script_of(6, 7).startswith(SIX_OF_SEVEN), "the script of 6 modules by the seed 7 is another"
    for count, seed in PAGES:
        yield Run(["make", str(count), str(seed)], b"", 0, encoded(summed_up(program, count, seed)))
