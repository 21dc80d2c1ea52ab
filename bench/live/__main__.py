"""What `hmr dev` costs over real JavaScript: `python3 bench/live PROGRAM [PART [MINUTES]] [--quick]`. bench/live.sh
says what each part measures."""
import collections
import shutil
import signal
import sys
import tempfile

sys.dont_write_bytecode = True
from figures import Figures  # noqa: E402
from rests import measure_idle, measure_memory  # noqa: E402
from saves import measure_save, measure_updates  # noqa: E402
from servers import live  # noqa: E402
from soaks import measure_soak  # noqa: E402
from starts import measure_client, measure_ready  # noqa: E402

Sizes = collections.namedtuple("Sizes", "starts runs pages saves updates idle minute memory")
WHOLE = Sizes(starts=(1000, 4096), runs=9, pages=(400, 4096), saves=20, updates=200, idle=4096, minute=60, memory=1000)
QUICK = Sizes(starts=(100, 400), runs=2, pages=(40, 400), saves=4, updates=12, idle=400, minute=5, memory=50)
PARTS = {"ready": measure_ready, "save": measure_save, "updates": measure_updates, "client": measure_client,
         "idle": measure_idle, "memory": measure_memory}


def tell_peers(figures):
    if shutil.which("esbuild") is None:
        figures.say("skipped: esbuild isn't installed")
    figures.say("not measured: webpack's dev server, of which Debian has no package (its webpack is a bundler alone)")


def measure(figures, part, how, *words):
    """Measures a part; a fault of it doesn't keep the others."""
    try:
        how(*words)
    except live.FAULTS as fault:
        figures.fail(part, fault)


def measure_all(program, part, minutes, sizes):
    """Measures a part, or all but the soak where none is named; the status."""
    figures = Figures()
    if part == "soak":
        measure(figures, part, measure_soak, program, figures, minutes)
    if part in ("", "ready", "save"):
        tell_peers(figures)
    for name, how in PARTS.items():
        if part in ("", name):
            measure(figures, name, how, program, figures, sizes)
    return 1 if figures.missed else 0


def main(words):
    for each in (signal.SIGTERM, signal.SIGHUP):
        signal.signal(each, lambda number, _: sys.exit(128 + number))
    sizes = QUICK if "--quick" in words else WHOLE
    program, *rest = [word for word in words if word != "--quick"]
    part, minutes = (rest + ["", "10"][len(rest):])[:2]
    if part not in ("", "soak", *PARTS):
        sys.exit(f"no part {part}: {', '.join(PARTS)} or soak")
    with tempfile.TemporaryDirectory(prefix="hmr-bench-", ignore_cleanup_errors=True) as folder:
        tempfile.tempdir = folder  # whatever is made stands there, and is gone at the end
        return measure_all(program, part, int(minutes), sizes)


sys.exit(main(sys.argv[1:]))
