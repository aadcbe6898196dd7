#!/usr/bin/env python3
"""Opens pages of dump_core.py in a headless Chromium: that none complains or asks for anything, that the overview sorts and
searches, that the graph's widths add up, that it is usable by keyboard and readable without scripts; and
that `tidy`, where it is there, finds no fault in it.

    tools/check/real/pages.py [--program crates/pystacks/out/pystacks] [--write]

The pages are those of reports made here, one with hostile names; of groups; and, where the program is built and this system
writes cores, of a real core of 200 threads. `--write` writes a picture of each into docs/pictures. Where there is no
Chromium one line says so. The status is 0 exactly where nothing that was tried failed.
"""

import argparse
import json
import os
import shutil
import signal
import subprocess
import sys
import tempfile
from pathlib import Path
from typing import Dict, List, Optional, Sequence, Tuple

from rooms import ROOT, TOOLS  # (first: it makes the other rooms known)

from browser import Browser, BrowserFault, browser_path
from child_cores import Failure, Skip, core_names, ended
from pystacks_tool.groups.triage import groups_of
from pystacks_tool.model import Frame, Interpreter, Local, Report, Thread
from pystacks_tool.show.page import group_page, report_page
from pystacks_tool.show.text import Style
from test_page import HOSTILE

PICTURES = ROOT / "docs" / "pictures"

CHILD = '''\
import os, queue, sys, threading

def fetch(jobs):
    return jobs.get()

def work(jobs):
    while True:
        fetch(jobs)

def reconcile(accounts, started):
    started.set()
    while True:
        sum(accounts)
        os.kill(os.getpid(), %d) if stop.is_set() else stop.wait(0.05)

stop, jobs, started = threading.Event(), queue.Queue(), threading.Event()
for number in range(190):
    threading.Thread(target=work, args=(jobs,), name="pool-%%d" %% number, daemon=True).start()
for number in range(9):
    lock = threading.Lock()
    lock.acquire()
    threading.Thread(target=lambda: lock.acquire(), name="keeper-%%d" %% number, daemon=True).start()
stop.set()
reconcile([1, 2, 3], started)
''' % signal.SIGABRT
"""A program of 200 threads, 190 of which wait in one place."""


def frames(*names: str) -> Tuple[Frame, ...]:
    """Frames of an application, the newest first."""
    return tuple(Frame(name, f"/srv/shop/{name.strip('<>')}.py", 7 + 11 * at) for at, name in enumerate(names))


def wide() -> Report:
    """A report of 200 threads, of which 190 are equal."""
    rows = (Local("order", "{\"id\": 7, \"total\": float 0x4033fd70a3d70a3d}", True), Local("state", '"open"'))
    deep = (Frame("total", "/srv/shop/cart.py", 9), Frame("discount", "/srv/shop/cart.py", 17)) * 40
    stack = (Frame("charge", "/srv/shop/payment.py", 41, rows), *deep, *frames("checkout", "serve", "<module>"))
    crashed = Thread(0x7F00, stack, 4711, "MainThread", True, True)
    pool = [Thread(number, frames("wait", "get", "work", "run", "_bootstrap"), 4712 + number, f"pool-{number}") for number in range(190)]
    others = [Thread(1000 + number, frames(f"poll_{number % 4}", "loop", "run", "_bootstrap"), 5000 + number, f"poll-{number}",
                     end="unreadable at 0x7f10a2c0b760, 88 bytes" if number == 8 else "") for number in range(9)]
    return Report((Interpreter((crashed, *pool, *others), 0x7F0000),), "3.11.7", 11, (4711, "python3 shop.py"), is_salvaged=True, core="core.4711")


def hostile() -> Report:
    """A report whose names are all markup."""
    frame = Frame(HOSTILE, HOSTILE, 3, (Local(HOSTILE, HOSTILE),), HOSTILE)
    threads = tuple(Thread(number, (frame, *frames("<script>", f"f{number}")), 1 + number, HOSTILE, number == 0, number == 1, end=HOSTILE) for number in range(12))
    return Report((Interpreter(threads, 1, True, HOSTILE, HOSTILE),), HOSTILE, 11, (1, HOSTILE), is_salvaged=True, core=HOSTILE)


def grouped() -> str:
    """A page of groups."""
    text = b"Group 1: 3\n    cores/core.4711\n    cores/core.4802\n    cores/core.5120\nGroup 2: 1\n    cores/core.6001\nRefused: 1\n    cores/core.6100: no note segment\n"
    other = Report((Interpreter((Thread(1, frames("commit", "flush", "<module>"), 6001, "MainThread", True),)),), "3.11.7", 6, (6001, "python3 shop.py"))
    names = [f"cores/core.{number}".encode("ascii") for number in (4711, 4802, 5120, 6001, 6100)]
    return group_page(groups_of(text, names), {b"cores/core.4711": wide(), b"cores/core.6001": other}, Style())


def real_core(folder: Path) -> Path:
    """A real core of 200 threads."""
    names = core_names()
    (folder / "shop.py").write_text(CHILD, encoding="utf-8")
    return ended([sys.executable, "shop.py"], folder).core(names)


def real_page(program: Path, folder: Path) -> Path:
    """The page of a real core, by the tool."""
    core, page = real_core(folder), folder / "real.html"
    command = [sys.executable, "-B", str(TOOLS / "dump_core.py"), f"--program={program}", str(core), f"--html={page}"]
    ran = subprocess.run(command, stdin=subprocess.DEVNULL, stdout=subprocess.PIPE, stderr=subprocess.PIPE, text=True)
    if ran.returncode != 0:
        raise Failure(f"the tool ended with status {ran.returncode}: {ran.stderr}")
    return page


# ---- what a page does


def wanted(is_so: object, what: str) -> None:
    """Fails where something isn't so."""
    if not is_so:
        raise Failure(what)


def check_table(browser: Browser) -> None:
    """That the overview sorts, both ways, and searches."""
    order = "Array.from(document.querySelectorAll('#overview tbody tr')).map(it => Number(it.cells[0].dataset.v))"
    first = browser.value(order)
    for turn, wish in ((1, sorted(first)), (2, sorted(first, reverse=True))):
        browser.value("document.querySelector('#overview th button').click()")
        wanted(browser.value(order) == wish, f"the overview isn't sorted after {turn} clicks")
    wanted(browser.value("document.querySelector('#overview th').getAttribute('aria-sort')") == "descending", "the order isn't told")
    text = browser.value("document.querySelector('#overview tbody tr').textContent.toLowerCase().slice(0, 6)")
    check_search(browser, text)
    values = browser.value("Array.from(document.querySelectorAll('#stacks dd, section ol ol i')).map(it => it.textContent.toLowerCase()).slice(0, 1)")
    for it in values:
        # (what stands in a stack alone, folded)
        check_search(browser, it[:20])
        wanted(browser.value("Array.from(document.querySelectorAll('main details')).some(it => it.open)"), f"a search for {it!r} opens nothing")


def check_search(browser: Browser, text: str) -> None:
    """That a search leaves the rows that have a text, or whose stack has it, and the stacks that have it, and nothing else."""
    told = json.dumps(text)
    left = browser.value(
        f"word.value = {told}; word.dispatchEvent(new Event('input'));"
        "Array.from(document.querySelectorAll('#overview tbody tr')).filter(it => !it.hidden).length")
    every = browser.value(
        f"(() => {{ const has = it => it.textContent.toLowerCase().includes({told});"
        "const part = row => document.getElementById(row.querySelector('a').hash.slice(1));"
        "const rows = Array.from(document.querySelectorAll('#overview tbody tr'));"
        "const alone = it => rows.filter(row => part(row) === it).length === 1;"
        "return rows.filter(row => has(row) || (alone(part(row)) ? has(part(row)) : Array.from(part(row).querySelectorAll('ol')).some(has))).length; })()")
    wanted(0 < left == every, f"a search for {text!r} leaves {left} of {every}")
    odd = browser.value(
        f"Array.from(document.querySelectorAll('#stacks section, main > section[id^=g]')).filter(it => it.hidden === it.textContent.toLowerCase().includes({told})).length")
    wanted(odd == 0, f"a search for {text!r} hides or shows {odd} stacks wrongly")
    browser.value("word.value = ''; word.dispatchEvent(new Event('input'))")


def bars_of(browser: Browser) -> List[Dict[str, float]]:
    """The bars of the graph as they are drawn."""
    return browser.value(
        "Array.from(document.querySelectorAll('#graph g')).map(it => { const r = it.querySelector('rect').getBoundingClientRect();"
        "return {a: Number(it.dataset.a), n: Number(it.dataset.n), x: r.x, y: r.y, w: r.width}; })")


def check_widths(bars: Sequence[Dict[str, float]]) -> None:
    """That the bars' widths add up: each as wide as its threads, the lowest as the whole, those above a bar within it."""
    lowest = max(bars, key=lambda it: it["y"])
    unit = lowest["w"] / lowest["n"]
    for it in bars:
        wanted(abs(it["w"] - it["n"] * unit) < 0.6, f"a bar of {it['n']} threads is {it['w']} wide, of {lowest['w']}")
    levels = sorted({it["y"] for it in bars}, reverse=True)
    for low, high in zip(levels, levels[1:]):
        for bar in (it for it in bars if it["y"] == low):
            above = [it for it in bars if it["y"] == high and bar["a"] <= it["a"] < bar["a"] + bar["n"]]
            wanted(sum(it["n"] for it in above) <= bar["n"], "more threads above a bar than it has")
            wanted(sum(it["w"] for it in above) <= bar["w"] + 0.6, "the bars above a bar are wider than it")


def check_graph(browser: Browser) -> None:
    """That the widths add up, and that a click, or a key, shows a bar's threads."""
    bars = bars_of(browser)
    check_widths(bars)
    for number in (0, len(bars) // 2, len(bars) - 1):
        browser.value(f"document.querySelectorAll('#graph g')[{number}].dispatchEvent(new MouseEvent('click', {{bubbles: true}}))")
        shown = browser.value("document.querySelectorAll('#picked a').length")
        wanted(shown == bars[number]["n"], f"a click shows {shown} threads of {bars[number]['n']}")
    browser.value("document.querySelector('#graph g').focus(); picked.textContent = ''")
    browser.press("ArrowUp")
    at = browser.value("Array.from(document.querySelectorAll('#graph g')).indexOf(document.activeElement)")
    wanted(at > 0, "an arrow doesn't lead to the next bar")
    browser.press("Enter")
    wanted(browser.value("document.querySelectorAll('#picked a').length") == bars[at]["n"], "Enter doesn't show a bar's threads")


def check_scripts_off(browser: Browser, page: Path, text: str) -> None:
    """That the page says the same without scripts."""
    browser.ask("Emulation.setScriptExecutionDisabled", value=True)
    browser.open(page)
    hidden = browser.value("getComputedStyle(document.getElementById('find')).display")
    own = browser.value("document.querySelector('main').innerText")
    browser.ask("Emulation.setScriptExecutionDisabled", value=False)
    wanted(hidden == "none", "the search is there without scripts")
    shown = [line for line in text.split("\n") if line not in ("Search ", "Search")]
    wanted(all(line in own for line in shown), "without scripts there is less to read")


def check_dark(browser: Browser) -> None:
    """That the page follows the reader's setting."""
    seen = []
    for value in ("dark", "light"):
        browser.ask("Emulation.setEmulatedMedia", features=[{"name": "prefers-color-scheme", "value": value}])
        seen.append(browser.value("getComputedStyle(document.body).backgroundColor"))
    wanted(seen[0] != seen[1], "light and dark are the same")


def check_tidy(page: Path) -> None:
    """That `tidy` finds nothing in it, where that is there."""
    if shutil.which("tidy"):
        ran = subprocess.run(["tidy", "-q", "-e", str(page)], stdin=subprocess.DEVNULL, stdout=subprocess.PIPE,
                             stderr=subprocess.PIPE)
        wanted(ran.returncode == 0 and not ran.stderr, f"tidy says {ran.stderr.decode('utf-8', 'replace')[:300]}")


def check_page(browser: Browser, page: Path) -> None:
    """All of it."""
    browser.open(page)
    wanted(browser.value("document.scripts.length") == 1, "there is another script")
    text = browser.value("document.querySelector('main').innerText")
    check_table(browser)
    if browser.value("Boolean(document.getElementById('graph'))"):
        check_graph(browser)
    check_dark(browser)
    faults = browser.faults()
    wanted(not faults, f"it complains: {faults[:3]}")
    check_scripts_off(browser, page, text)
    check_tidy(page)


def put_pictures(browser: Browser, page: Path, name: str) -> None:
    """Writes a picture of a page, and of a core's also a dark one."""
    PICTURES.mkdir(exist_ok=True)
    for value in ("light", "dark") if name == "core" else ("light",):
        browser.ask("Emulation.setEmulatedMedia", features=[{"name": "prefers-color-scheme", "value": value}])
        browser.open(page)
        (PICTURES / f"{name}-{value}.png").write_bytes(browser.picture(1000, 1150))


def pages_in(folder: Path, program: Optional[Path]) -> Dict[str, Path]:
    """The pages that are tried, by name."""
    made = {"core": report_page(wide(), Style()), "hostile": report_page(hostile(), Style()), "groups": grouped()}
    found = {}
    for name, text in made.items():
        found[name] = folder / f"{name}.html"
        found[name].write_bytes(text.encode("utf-8", "backslashreplace"))
    try:
        if program and program.is_file():
            found["real"] = real_page(program, folder)
        else:
            print("pages: skipped: pages of real cores: the program isn't built")
    except Skip as reason:
        print(f"pages: skipped: pages of real cores: {reason}")
    return found


def main() -> int:
    """The check."""
    parser = argparse.ArgumentParser(description=__doc__, formatter_class=argparse.RawDescriptionHelpFormatter)
    parser.add_argument("--program", default=str(ROOT / "crates" / "pystacks" / "out" / "pystacks"), help="the built program")
    parser.add_argument("--write", action="store_true", help="write a picture of each page into docs/pictures")
    words = parser.parse_args()
    path = browser_path()
    if path is None:
        print("pages: skipped: there is no Chromium")
        return 0
    failed = 0
    with tempfile.TemporaryDirectory(prefix="pages-") as name:
        pages = pages_in(Path(name), Path(os.path.abspath(words.program)))
        for name, page in pages.items():
            try:
                with Browser(path) as browser:
                    check_page(browser, page)
                    if words.write and name != "real":
                        put_pictures(browser, page, name)
            except (Failure, BrowserFault) as reason:
                failed += 1
                print(f"pages: FAILED: {name}: {reason}")
    print(f"pages: {len(pages) - failed} of {len(pages)} pages do what they should")
    return 1 if failed else 0


if __name__ == "__main__":
    sys.exit(main())
