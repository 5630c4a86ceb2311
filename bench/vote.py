#!/usr/bin/env python3
"""Times the proved program's vote on three position references, and says whether it meets its goals.

Usage: bench/vote.py. It runs ./dp once to build the program, then measures the program itself on streams of 1 MiB and
of 16 MiB, with frames and with a report: the bytes that it filters in a second of user time, each the best of several
rounds of runs in which both sizes take turns, and its peak memory. It ends with 1 where a goal is missed.

The vessel moves about the set point. Each second has three references and a switching telegram; the third drifts off to
the north and back.
"""

import pathlib
import subprocess
import sys
import tempfile
from collections.abc import Iterator

from program import PROGRAM, build, peak_mebibytes, user_seconds
from streams import MOST_STREAM_BYTES, frame

ROUNDS = 5
RUNS = 3
MEBIBYTE = 1_048_576

# the goals: the bytes that are filtered in a second, the peak memory, and how far the speed of a byte at 1 MiB may be
# from that at 16 MiB, of the latter
LEAST_MEBIBYTES_A_SECOND = 60
MOST_MEBIBYTES = 4
MOST_DIFFERENCE = 0.2


def seconds_of_a_watch() -> Iterator[bytes]:
    k = 0
    while True:
        k += 1
        x, y, drift = 37 * k % 101 - 50, 53 * k % 89 - 44, max(0, 800 - abs(k % 4000 - 2000))
        for number, (dx, dy, heading) in enumerate(((0, 0, 0), (3, -2, 35_990), (drift, 1, 10)), 1):
            yield frame(f"REF,{1000 * k},{number},{x + dx},{y + dy},{heading}")
        yield frame("TIE,T1,OPEN" if k % 2 else "TIE,T1,CLOSE")


def stream(size: int) -> bytes:
    """A stream of at most that many bytes, in whole lines."""
    lines, count = [], 0
    for line in seconds_of_a_watch():
        count += len(line)
        if count > size:
            return b"".join(lines)
        lines.append(line)


def seconds(path: pathlib.Path, options: list[str]) -> float:
    """The mean user time of a run, over as many runs as read so many bytes in all."""
    return user_seconds(["vote", path, *options], RUNS * MOST_STREAM_BYTES // int(path.name))


def main() -> int:
    build()
    missed = []
    with tempfile.TemporaryDirectory() as folder:
        paths = [pathlib.Path(folder) / str(size) for size in (MEBIBYTE, MOST_STREAM_BYTES)]
        for path in paths:
            path.write_bytes(stream(int(path.name)))
        for name, options in (("frames", []), ("report", ["--report"])):
            rounds = [[seconds(path, options) for path in paths] for _ in range(ROUNDS)]
            speeds = []
            for path, best in zip(paths, map(min, zip(*rounds))):
                mebibytes = path.stat().st_size / MEBIBYTE
                speeds.append(mebibytes / best)
                print(f"{name}: {mebibytes:.1f} MiB in {1e3 * best:.1f} ms user, {speeds[-1]:.0f} MiB a second")
            words = ["vote", paths[-1], *options]
            written = len(subprocess.run([PROGRAM, *words], stdout=subprocess.PIPE, check=True).stdout)
            peak = peak_mebibytes(words, written)
            print(f"{name}: {peak:.1f} MiB at most")
            goals = (
                (f"at least {LEAST_MEBIBYTES_A_SECOND} MiB a second", speeds[1] >= LEAST_MEBIBYTES_A_SECOND),
                (f"at most {MOST_MEBIBYTES} MiB of memory", peak <= MOST_MEBIBYTES),
                (
                    f"the speeds differ by at most {MOST_DIFFERENCE:.0%}",
                    abs(speeds[0] - speeds[1]) <= MOST_DIFFERENCE * speeds[1],
                ),
            )
            missed += [f"{name}: {goal}" for goal, is_met in goals if not is_met]
    for goal in missed:
        print(f"missed: {goal}", file=sys.stderr)
    return 1 if missed else 0


if __name__ == "__main__":
    sys.exit(main())
