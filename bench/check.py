#!/usr/bin/env python3
"""Times the check of a demand by the proved program: on the demo, on a plant of 64 choices, and on the greatest lists.

Usage: bench/check.py. It runs ./dp once to build the program, then measures the program itself: the user time of the
whole process, and its peak memory.
"""

import pathlib
import tempfile

from plants import greatest_lists, greatest_plant
from program import build, peak_mebibytes, user_seconds

RUNS = 50


def main() -> None:
    build()
    with tempfile.TemporaryDirectory() as folder:
        plant, lists = pathlib.Path(folder) / "plant.toml", pathlib.Path(folder) / "lists.toml"
        plant.write_text(greatest_plant())
        lists.write_text(greatest_lists())
        for name, words in (
            ("the demo", ["demo", "0", "381", "0"]),
            ("12 thrusters and 64 choices", [str(plant), "24000", "24000", "76800000"]),
            ("the greatest lists", [str(lists), "24000", "24000", "76800000"]),
        ):
            words = ["check", *words]
            milliseconds = 1e3 * user_seconds(words, RUNS, (0, 1))
            print(f"{name}: {milliseconds:.1f} ms user, {peak_mebibytes(words):.1f} MiB at most")


if __name__ == "__main__":
    main()
