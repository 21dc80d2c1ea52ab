"""How soon a save is seen on a page, in Chromium."""
import shutil
import time

from browser import Browser, Told, chromium
from figures import median, spread
from servers import EsbuildPage, HmrPage
from trees import leaf, leaf_name, save

FLAT = 1.5
STEADY = 1.25
PAUSE = 0.25  # seconds, and at most 0.1 more, so that saves come at different moments of a look


class Opened:
    """A page that is open in Chromium, whose last module is saved again and again."""

    def __init__(self, page):
        self.page = page
        self.value = 0
        _, (self.load, _) = page.told.next("0")
        page.settle(True)

    def save(self, pause):
        """Milliseconds from the write of the last module to the moment at which its new value is in the document; and
        of a page of `hmr dev` those from the answer that had the update to `done`, within the page."""
        self.value += 1
        time.sleep(pause + 0.1 * (self.value * 7 % 20) / 20)
        before = time.perf_counter()
        save(self.page.folder, leaf_name(self.page.count), leaf(self.value))
        at, (_, within) = self.page.told.next(str(self.value))
        self.page.settle(False)
        return 1000 * (at - before), float(within or 0)


def saves_of(page, count, pause):
    """How long the page took to load, and each of so many saves. The first one isn't counted: esbuild looks more often
    at a file that has been saved lately."""
    with page.served() as address, Browser(address):
        opened = Opened(page)
        opened.save(pause)
        return float(opened.load), [opened.save(pause) for _ in range(count)]


def save_times(page, figures, sizes):
    load, times = saves_of(page, sizes.saves, PAUSE)
    shown = [each for each, _ in times]
    figures.say(f"save, {page.count:,} files, {page.name}, {len(shown)} saves: shown after {spread(shown)}; the page "
                f"showed its first value {load:,.0f} ms after it was opened")
    return median(shown)


def is_skipped(figures):
    if chromium() is None:
        figures.say("skipped: no Chromium is installed")
    return chromium() is None


def measure_save(program, figures, sizes):
    if is_skipped(figures):
        return
    ours = {}
    for count in sizes.pages:
        with Told() as told:
            ours[count] = save_times(HmrPage(program, count, told), figures, sizes)
        if shutil.which("esbuild") is None:
            continue
        with Told() as told:
            ratio = ours[count] / save_times(EsbuildPage(count, told), figures, sizes)
        figures.judge(f"save, {count:,} files: {ratio:.2f} of the time of esbuild's live reload", ratio, 1.0)
    few, many = sizes.pages
    ratio = ours[many] / ours[few]
    figures.judge(f"save: {many:,} files take {ratio:.2f} times as long as {few:,}", ratio, FLAT)


def measure_updates(program, figures, sizes):
    """Saves in a row on one page: the last ones take no longer than the first."""
    if is_skipped(figures):
        return
    count = sizes.pages[0]
    with Told() as told:
        _, times = saves_of(HmrPage(program, count, told), sizes.updates, 0.05)
    part = sizes.updates // 4
    first, last = ([each for each, _ in some] for some in (times[:part], times[-part:]))
    ratio = median(last) / median(first)
    figures.judge(f"updates, {sizes.updates} in a row, {count:,} files: shown after {median(first):.1f} ms of the "
                  f"first {part}, {median(last):.1f} ms of the last {part}, {ratio:.2f} times as long", ratio, STEADY)
    first, last = ([each for _, each in some] for some in (times[:part], times[-part:]))
    figures.say(f"updates: of these within the page, from the answer to `done`, {spread(first)} and {spread(last)}")
