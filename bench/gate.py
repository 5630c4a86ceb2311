#!/usr/bin/env python3
"""Runs the gate on a copy of the repository, from nothing, and prints what each crate took.

Usage: bench/gate.py [--kept] [NAME ..]. With --kept what earlier runs on this machine proved isn't proved again; with
names these crates and those below them are run alone. The exit status is the gate's.

The copy has crates/, crates.txt and HANDLES. Each process below the gate is looked at five times a second, and its
processor time goes to the crate that its words name, as a proof, as tests or as must-fail edits. What a process takes
after the last look at it isn't counted, so the sums are a little low; a seed, which a crate's edits begin with, counts
as an edit. The seconds by the clock are from the first look at a crate's work to the last.
"""

import argparse
import collections
import dataclasses
import os
import pathlib
import re
import shutil
import subprocess
import sys
import tempfile
import threading
import time

ROOT = pathlib.Path(__file__).resolve().parent.parent
TICKS = os.sysconf("SC_CLK_TCK")
LOOKS_A_SECOND = 5
KINDS = ("proof", "tests", "edits")


@dataclasses.dataclass
class Work:
    processor: float = 0.0
    first: float = 0.0
    last: float = 0.0


def parent_and_seconds(process: int) -> tuple[int, float]:
    fields = pathlib.Path(f"/proc/{process}/stat").read_text().rpartition(")")[2].split()
    return int(fields[1]), (int(fields[11]) + int(fields[12])) / TICKS


def kind_of(process: int) -> tuple[str, str] | None:
    """The crate that a process works on and which work that is, where its words tell."""
    words = pathlib.Path(f"/proc/{process}/cmdline").read_bytes().decode(errors="replace").split("\0")
    folder = os.readlink(f"/proc/{process}/cwd")
    named = re.search(r"--crate-name[ =](\w+)", " ".join(words)) or re.search(r"/crates/(\w+)", folder)
    if not named:
        return None
    # (the gate tries an edit, and proves what a crate's edits begin with, in a copy of the crate)
    is_edit = any(re.search(r"/rt-edits?-", text) for text in (folder, *words))
    return named[1], "edits" if is_edit else "tests" if "--test" in words else "proof"


class Meter(threading.Thread):
    """Looks at all processes below one until it is ended."""

    def __init__(self, top: int) -> None:
        super().__init__(daemon=True)
        self.top, self.ended = top, threading.Event()
        self.seconds: dict[int, float] = {}
        self.kinds: dict[int, tuple[str, str] | None] = {}
        self.works: dict[tuple[str, str] | None, Work] = collections.defaultdict(Work)

    def look(self) -> None:
        parents, seconds = {}, {}
        for name in filter(str.isdigit, os.listdir("/proc")):
            try:
                parents[int(name)], seconds[int(name)] = parent_and_seconds(int(name))
            except (OSError, IndexError, ValueError):
                continue
        for process in parents:
            above = process
            while above in parents and above != self.top:
                above = parents[above]
            if above != self.top or process == self.top:
                continue
            if process not in self.kinds:
                try:
                    self.kinds[process] = kind_of(process) or self.kinds.get(parents[process])
                except OSError:
                    continue
            work, now = self.works[self.kinds[process]], time.monotonic()
            work.processor += seconds[process] - self.seconds.get(process, 0.0)
            work.first, work.last = work.first or now, now
            self.seconds[process] = seconds[process]

    def run(self) -> None:
        while not self.ended.wait(1 / LOOKS_A_SECOND):
            self.look()


def table(works: dict[tuple[str, str] | None, Work]) -> None:
    """Prints processor seconds and seconds by the clock of each crate's works."""
    print(f"{'crate':20}" + "".join(f"{kind:>8} {'clock':>6}" for kind in KINDS))
    for crate in sorted({key[0] for key in works if key}):
        cells = [works.get((crate, kind), Work()) for kind in KINDS]
        print(f"{crate:20}" + "".join(f"{it.processor:8.0f} {it.last - it.first:6.0f}" for it in cells))
    sums = [sum(work.processor for key, work in works.items() if key and key[1] == kind) for kind in KINDS]
    print(f"{'all':20}" + "".join(f"{it:8.0f} {'':6}" for it in sums))


def main() -> int:
    words = argparse.ArgumentParser()
    words.add_argument("--kept", action="store_true")
    words.add_argument("names", nargs="*")
    asked = words.parse_args()
    with tempfile.TemporaryDirectory() as folder:
        shutil.copytree(ROOT / "crates", f"{folder}/crates", ignore=shutil.ignore_patterns("out"))
        for name in ("crates.txt", "HANDLES"):
            shutil.copy(ROOT / name, folder)
        began = time.monotonic()
        command = ["rt", "ci", *([] if asked.kept else ["--anew"]), *asked.names]
        gate = subprocess.Popen(command, cwd=folder, stdout=subprocess.PIPE, stderr=subprocess.STDOUT, text=True)
        meter = Meter(gate.pid)
        meter.start()
        said = gate.stdout.read().splitlines()
        meter.ended.set()
        meter.join()
        minutes = (time.monotonic() - began) / 60
    table(meter.works)
    whole = sum(work.processor for work in meter.works.values()) / 60
    print(f"{whole:.0f} processor minutes, {minutes:.0f} by the clock on {len(os.sched_getaffinity(0))} processors")
    print("\n".join(said[-4:]))
    return gate.wait()


if __name__ == "__main__":
    sys.exit(main())
