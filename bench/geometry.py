#!/usr/bin/env python3
"""Times what the analysis of one choice takes: a least cut and an exit, of the sums of small and of great plants.

Usage: bench/geometry.py. It builds the proved program geometry_bench first, then measures the program itself.
"""

import pathlib
import resource
import subprocess

ROOT = pathlib.Path(__file__).resolve().parent.parent
CRATE = ROOT / "crates" / "geometry_bench"
PROGRAM = CRATE / "out" / "geometry_bench"
TURNS = {
    ("exit", "demo"): 2_000_000,
    ("exit", "corners"): 500_000,
    ("exit", "greatest"): 200_000,
    ("cut", "demo"): 200_000,
    ("cut", "corners"): 50_000,
    ("cut", "greatest"): 200,
}


def user_seconds(found: str, sums: str, turns: int) -> float:
    before = resource.getrusage(resource.RUSAGE_CHILDREN).ru_utime
    subprocess.run([PROGRAM, found, sums, str(turns)], stdout=subprocess.DEVNULL, check=True)
    return resource.getrusage(resource.RUSAGE_CHILDREN).ru_utime - before


def main() -> None:
    subprocess.run(["rt", "run", "--", "exit", "demo", "10"], cwd=CRATE, stdout=subprocess.DEVNULL, check=True)
    for (found, sums), turns in TURNS.items():
        print(f"{found} of {sums}: {1e6 * user_seconds(found, sums, turns) / turns:.2f} us")


main()
