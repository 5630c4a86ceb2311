#!/usr/bin/env python3
"""Times the capability by the proved program: on the demo, on the ships of examples/plants, on a plant of 64 choices, and on the
greatest lists. It says whether it meets its goals.

Usage: bench/capability.py. It runs ./dp once to build the program, then measures the program itself: the user time of
the whole process, and its peak memory. Beside that it builds the proved program capability_bench, which decides all speeds
from all angles by the tents of the exits, as `dp capability` does, and by an exit for each, and tells how many times longer that takes.
It ends with 1 where a goal is missed.
"""

import pathlib
import resource
import subprocess
import sys
import tempfile

from plants import greatest_lists, greatest_plant
from program import PROGRAM, ROOT, build, peak_mebibytes, user_seconds

RUNS = 5
SHIPS = ("cable_layer", "diving_support", "drillship")
# (a small demand: the greater the wind that is held, the more speeds are decided)
DEMAND = ["20", "30", "400"]
CRATE = ROOT / "crates" / "capability_bench"

# the goals: the user time in ms, how many times longer an exit for each speed takes, and the peak memory in MiB
GOALS = {
    "the demo": (12, 5),
    "cable layer": (40, 5),
    "diving support": (40, 5),
    "drillship": (40, 5),
    "12 thrusters, 64 choices and 16 groups": (400, 10),
    "the greatest lists": (1_500, 10),
}
MOST_MEBIBYTES = 4


def length_of(words: list) -> int:
    """How many bytes the words' run writes."""
    run = subprocess.run([PROGRAM, *words], stdin=subprocess.DEVNULL, capture_output=True, check=False)
    return len(run.stdout)


def plants(folder: pathlib.Path) -> list[tuple[str, str]]:
    """What is timed, each with its name."""
    greatest, lists = folder / "plant.toml", folder / "lists.toml"
    greatest.write_text(greatest_plant())
    lists.write_text(greatest_lists())
    ships = {ship.replace("_", " "): str(ROOT / "examples" / "plants" / f"{ship}.toml") for ship in SHIPS}
    return [
        ("the demo", "demo"),
        *ships.items(),
        ("12 thrusters, 64 choices and 16 groups", str(greatest)),
        ("the greatest lists", str(lists)),
    ]


def seconds_by(way: str, plant: str) -> float:
    """The user time of deciding all speeds from all angles in this way, of the quickest of some runs."""
    runs = []
    for _ in range(RUNS):
        before = resource.getrusage(resource.RUSAGE_CHILDREN).ru_utime
        subprocess.run([CRATE / "out" / "capability_bench", way, plant], stdout=subprocess.DEVNULL, check=True)
        runs.append(resource.getrusage(resource.RUSAGE_CHILDREN).ru_utime - before)
    return min(runs)


def main() -> int:
    build()
    subprocess.run(["rt", "run", "--", "tents", "demo"], cwd=CRATE, stdout=subprocess.DEVNULL, check=True)
    missed = []
    with tempfile.TemporaryDirectory() as folder:
        for name, plant in plants(pathlib.Path(folder)):
            words = ["capability", plant, *DEMAND]
            milliseconds = 1e3 * user_seconds(words, RUNS, (0, 1))
            mebibytes = peak_mebibytes(words, length_of(words))
            ratio = seconds_by("exits", plant) / seconds_by("tents", plant)
            print(f"{name}: {milliseconds:.1f} ms user, {mebibytes:.1f} MiB at most; by an exit for each speed {ratio:.1f} times as long")
            most, least = GOALS[name]
            missed += [
                f"{name}: {goal}"
                for goal, is_met in (
                    (f"at most {most} ms", milliseconds <= most),
                    (f"at most {MOST_MEBIBYTES} MiB", mebibytes <= MOST_MEBIBYTES),
                    (f"an exit for each speed takes at least {least} times as long", ratio >= least),
                )
                if not is_met
            ]
    for goal in missed:
        print(f"missed: {goal}", file=sys.stderr)
    return 1 if missed else 0


if __name__ == "__main__":
    sys.exit(main())
