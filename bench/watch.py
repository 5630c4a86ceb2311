#!/usr/bin/env python3
"""Times the proved program on a watch of four hours on the demo plant, and says whether it meets its goals.

Usage: bench/watch.py. It runs ./dp once to build the program, then measures the program itself over the watch and over
its first 1,000 telegrams: the user time of a run and of an entry, the verdicts that it shows in a second of user time,
and its peak memory over the watch. It ends with 1 where a goal is missed.

The watch has a position each second about the set point, a wind every ten seconds, and a bus tie that is closed after
the first hour and opened after the second.
"""

import pathlib
import re
import subprocess
import sys
import tempfile
from collections.abc import Callable

from program import PROGRAM, build, peak_mebibytes, user_seconds
from streams import frame, sensors_at

RUNS = 5
SECONDS = 14_400
FRONT = 1_000

# the goals: a run's user time and peak memory, and how many times the time of an entry of the front an entry of the
# whole watch may take
MOST_SECONDS = 1.5
MOST_MEBIBYTES = 250
MOST_GROWTH = 1.5


def orders_at(second: int) -> list[bytes]:
    """What the operators say at this second."""
    return {3_600: [frame("TIE,T1,CLOSE")], 7_200: [frame("TIE,T1,OPEN")]}.get(second, [])


def telegrams(*said: Callable[[int], list[bytes]]) -> list[bytes]:
    """What these say in the watch, at each second one after the other."""
    return [telegram for second in range(1, SECONDS + 1) for at in said for telegram in at(second)]


def written(words: list) -> bytes:
    """What a run writes. It ends with 0: each demand is met after each loss."""
    return subprocess.run([PROGRAM, *words], stdout=subprocess.PIPE, check=True).stdout


def entries_in(text: bytes) -> int:
    """The log's lines but for its first."""
    return len(re.findall(rb"^[SCO] ", text, re.MULTILINE))


def main() -> int:
    build()
    stream = telegrams(sensors_at, orders_at)
    with tempfile.TemporaryDirectory() as folder:
        path = pathlib.Path(folder) / "telegrams"
        words = ["replay", "demo", path]
        costs = []
        for name, part in (("its front", stream[:FRONT]), ("the watch", stream)):
            path.write_bytes(b"".join(part))
            text = written(words)
            seconds, entries, verdicts = user_seconds(words, RUNS), entries_in(text), text.count(b"\nS PUBLISH,")
            costs.append(1e6 * seconds / entries)
            print(
                f"{name}: {len(part)} telegrams, {entries} entries, {verdicts} verdicts: {1e3 * seconds:.1f} ms user, "
                f"{costs[-1]:.2f} us an entry, {verdicts / seconds:.0f} verdicts a second"
            )
        mebibytes = peak_mebibytes(words, len(text))
        print(f"the watch: {mebibytes:.1f} MiB at most")
    missed = [
        goal
        for goal, is_met in (
            (f"a run of the watch takes at most {MOST_SECONDS} s", seconds <= MOST_SECONDS),
            (f"it takes at most {MOST_MEBIBYTES} MiB", mebibytes <= MOST_MEBIBYTES),
            (f"an entry takes at most {MOST_GROWTH} times one of the front", costs[1] <= MOST_GROWTH * costs[0]),
        )
        if not is_met
    ]
    for goal in missed:
        print(f"missed: {goal}", file=sys.stderr)
    return 1 if missed else 0


if __name__ == "__main__":
    sys.exit(main())
