#!/usr/bin/env python3
"""Times turns of the lock beside std's lock round the same value: turns a second with 1, 2 and 4 threads.

Usage: bench/turns.py. It builds the proved program thread_bench first, then measures the program itself.
"""

import pathlib
import subprocess
import time

ROOT = pathlib.Path(__file__).resolve().parent.parent
CRATE = ROOT / "crates" / "thread_bench"
PROGRAM = CRATE / "out" / "thread_bench"
TURNS = 400_000
RUNS = 3


def seconds(lock: str, threads: int, turns: int) -> float:
    """The least wall time of some runs, less that of a run with no turns."""
    def once(count: int) -> float:
        start = time.perf_counter()
        subprocess.run([PROGRAM, lock, str(threads), str(count)], stdout=subprocess.DEVNULL, check=True)
        return time.perf_counter() - start

    return max(min(once(turns) for _ in range(RUNS)) - min(once(0) for _ in range(RUNS)), 1e-9)


def main() -> None:
    subprocess.run(["rt", "run", "--", "turn", "2", "1000"], cwd=CRATE, stdout=subprocess.DEVNULL, check=True)
    for threads in (1, 2, 4):
        rates = {lock: TURNS / seconds(lock, threads, TURNS) for lock in ("turn", "mutex")}
        print(f"{threads} threads: " + ", ".join(f"{rate:,.0f} turns a second behind {lock}" for lock, rate in rates.items()))


main()
