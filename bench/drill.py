#!/usr/bin/env python3
"""Times drills by the proved program, and says whether they meet their goals.

Usage: bench/drill.py. It runs ./dp once to build the program, then measures the program itself: the wall time and the peak memory
of the drill of seed 7 and 20,000 steps, and the wall time of a telegram in one of 25,000 steps beside that in one of 2,500. It ends
with 1 where a goal is missed. The goals on times want a machine of four processors with nothing else to do.
"""

import statistics
import sys

from program import build
from run import measured

RUNS = 5
SEED = "7"
STEPS = 20_000
FEW, MANY = 2_500, 25_000
# each step of this many has a telegram of the operators beside that of the sensors
STEPS_OF_AN_ORDER = 100

# the goals
MOST_SECONDS = 2
MOST_MEBIBYTES = 400
MOST_GROWTH = 1.3


def drilled(steps: int) -> tuple[float, float]:
    """The wall time of a drill of so many steps, in the middle of some runs, and the greatest peak of its memory in MiB."""
    runs = [measured(["drill", SEED, str(steps)]) for _ in range(RUNS)]
    assert all(status == 0 for status, _, _ in runs), runs
    return statistics.median(seconds for _, seconds, _ in runs), max(mebibytes for _, _, mebibytes in runs)


def microseconds(steps: int) -> float:
    """The wall time of a telegram in a drill of so many steps."""
    return 1e6 * drilled(steps)[0] / (steps + steps // STEPS_OF_AN_ORDER)


def main() -> int:
    build()
    seconds, mebibytes = drilled(STEPS)
    print(f"{STEPS} steps: {seconds:.2f} s, {mebibytes:.1f} MiB at most")
    few, many = microseconds(FEW), microseconds(MANY)
    print(f"a telegram: {few:.1f} us in {FEW} steps, {many:.1f} us in {MANY}, {many / few:.2f} times as much")
    missed = [
        goal
        for goal, is_met in (
            (f"{STEPS} steps take at most {MOST_SECONDS} s", seconds <= MOST_SECONDS),
            (f"they take at most {MOST_MEBIBYTES} MiB", mebibytes <= MOST_MEBIBYTES),
            (f"a telegram takes at most {MOST_GROWTH} times one in {FEW} steps", many <= MOST_GROWTH * few),
        )
        if not is_met
    ]
    for goal in missed:
        print(f"missed: {goal}", file=sys.stderr)
    return 1 if missed else 0


if __name__ == "__main__":
    sys.exit(main())
