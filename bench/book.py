#!/usr/bin/env python3
"""Times the plant that several callers share beside its machine behind std's lock: calls a second of 1, 2 and 4
callers, and looks at the board a second of 1, 2 and 4 threads while one caller is busy, as ratios with their goals.

Usage: bench/book.py. It builds the proved program thread_bench first, then measures the program itself. The ratios say
something only on a machine that does nothing else.
"""

import os
import pathlib
import subprocess
import time

ROOT = pathlib.Path(__file__).resolve().parent.parent
CRATE = ROOT / "crates" / "thread_bench"
PROGRAM = CRATE / "out" / "thread_bench"
# As many as a book takes down.
CALLS = 50_000
RUNS = 9
GOALS = {("book", 1): 0.7, ("book", 4): 1 / 3, ("displays", 4): 10}


def run(work: str, threads: int, calls: int) -> tuple[float, int]:
    """The wall time of a run, and the number that it prints."""
    start = time.perf_counter()
    done = subprocess.run([PROGRAM, work, str(threads), str(calls)], capture_output=True, text=True, check=True)
    return time.perf_counter() - start, int(done.stdout)


def rate(work: str, threads: int) -> float:
    """The greatest number a second of some runs, less the time of a run with no calls."""
    idle = min(run(work, threads, 0)[0] for _ in range(RUNS))
    busy = [run(work, threads, CALLS) for _ in range(RUNS)]
    return max(count / max(seconds - idle, 1e-9) for seconds, count in busy)


def main() -> None:
    subprocess.run(["rt", "run", "--", "book", "2", "1000"], cwd=CRATE, stdout=subprocess.DEVNULL, check=True)
    print(f"{os.cpu_count()} processors")
    for work, other, what in (("book", "core", "calls of {} callers"), ("displays", "cells", "looks of {} threads")):
        for threads in (1, 2, 4):
            ratio = rate(work, threads) / rate(other, threads)
            goal = GOALS.get((work, threads))
            asked = f", goal at least {goal:.2f}" if goal else ""
            print(f"{what.format(threads)}: {ratio:.2f} of those behind std's lock{asked}")


if __name__ == "__main__":
    main()
