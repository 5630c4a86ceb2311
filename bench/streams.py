#!/usr/bin/env python3
"""Times the proved program on recorded streams: switching telegrams, positions, and one long line.

Usage: bench/streams.py. It runs ./dp once to build the program, then measures the program itself: the user time of a
run and of a telegram, the bytes of a long line that it reads in a second, and the peak memory.
"""

import pathlib
import subprocess
import tempfile
from collections.abc import Callable

from program import PROGRAM, build, peak_mebibytes, user_seconds

MOST_ENTRIES = 50_000
MOST_STREAM_BYTES = 16_777_216
RUNS = 10


def frame(body: str) -> bytes:
    checksum = 0
    for byte in body.encode():
        checksum ^= byte
    return f"${body}*{checksum:02X}\n".encode()


def switching(count: int) -> bytes:
    """That many telegrams, which close and open the demo plant's tie in turn."""
    close, open_ = frame("TIE,T1,CLOSE"), frame("TIE,T1,OPEN")
    return b"".join(open_ if place % 2 else close for place in range(count))


def position(second: int) -> bytes:
    """A position about the set point of the demo plant, at this second."""
    return frame(f"POS,{1000 * second},{37 * second % 101 - 50},{53 * second % 89 - 44},0")


def positions(count: int) -> bytes:
    """That many positions, a second apart, at which the vessel moves about the set point."""
    return b"".join(map(position, range(1, count + 1)))


def sensors_at(second: int) -> list[bytes]:
    """What the sensors of a watch say at this second: a position, and every ten seconds a wind."""
    return [position(second)] + ([frame(f"WND,{1000 * second},120,0")] if second % 10 == 0 else [])


def time_telegrams(name: str, stream: Callable[[int], bytes], path: pathlib.Path) -> None:
    words = ["replay", "demo", path]
    for count in (1_000, 10_000, MOST_ENTRIES):
        path.write_bytes(stream(count))
        seconds = user_seconds(words, RUNS)
        print(
            f"{name}: {count} telegrams, {path.stat().st_size} bytes: {1e3 * seconds:.1f} ms user, "
            f"{1e6 * seconds / count:.2f} us a telegram"
        )
    written = len(subprocess.run([PROGRAM, *words], stdout=subprocess.PIPE, check=True).stdout)
    print(f"{name}: peak memory {peak_mebibytes(words, written):.1f} MiB")


def main() -> None:
    build()
    with tempfile.TemporaryDirectory() as folder:
        path = pathlib.Path(folder) / "telegrams"
        time_telegrams("switching", switching, path)
        time_telegrams("positions", positions, path)
        path.write_bytes(b"A" * (MOST_STREAM_BYTES - 1) + b"\n")
        seconds = user_seconds(["replay", "demo", path], RUNS)
        print(f"one long line: {MOST_STREAM_BYTES} bytes in {1e3 * seconds:.1f} ms user, {16 / seconds:.0f} MiB a second")


if __name__ == "__main__":
    main()
