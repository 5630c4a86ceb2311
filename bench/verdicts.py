#!/usr/bin/env python3
"""Times the analysis of a plant and the check of one verdict on it, on the demo and on a plant of 64 choices.

Usage: bench/verdicts.py. It builds the proved program verdict_bench first, then measures the program itself.
"""

import pathlib
import resource
import subprocess
import tempfile

from plants import greatest_plant

ROOT = pathlib.Path(__file__).resolve().parent.parent
CRATE = ROOT / "crates" / "verdict_bench"
PROGRAM = CRATE / "out" / "verdict_bench"


def user_seconds(work: str, plant: str, turns: int) -> float:
    before = resource.getrusage(resource.RUSAGE_CHILDREN).ru_utime
    subprocess.run([PROGRAM, work, plant, str(turns)], stdout=subprocess.DEVNULL, check=True)
    return resource.getrusage(resource.RUSAGE_CHILDREN).ru_utime - before


def main() -> None:
    subprocess.run(["rt", "run", "--", "check", "demo", "10"], cwd=CRATE, stdout=subprocess.DEVNULL, check=True)
    with tempfile.TemporaryDirectory() as folder:
        path = pathlib.Path(folder) / "plant.toml"
        path.write_text(greatest_plant())
        for name, plant, turns in (("the demo", "demo", 50_000), ("12 thrusters and 64 choices", str(path), 2_000)):
            for work in ("analyse", "check"):
                seconds = user_seconds(work, plant, turns) - user_seconds(work, plant, 1)
                print(f"{work}, {name}: {1e6 * seconds / turns:.1f} us")


main()
