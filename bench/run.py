#!/usr/bin/env python3
"""Times a session over two streams beside the same telegrams as one recorded stream, and says whether it meets its goals.

Usage: bench/run.py. It runs ./dp once to build the program, then measures the program itself:

- a watch of four hours on the demo plant (see bench/watch.py), its sensors and its operators as two files, with 2 workers: the wall
  time and the peak memory beside those of `replay`;
- the wait for a command, on a plant of 12 thrusters, 64 choices and 16 groups: positions are piped in every 20 ms, and none is
  held back for an answer, while the operators switch a tie a hundred times a second. Half of the positions make a version. The
  wait is from the last byte of a position to the last byte of its frames;
- 50,000 items in all on that plant, with 2 workers: the status, the wall time and the peak memory.

It ends with 1 where a goal is missed. The goals on times want a machine with nothing else to do.
"""

import os
import pathlib
import re
import select
import statistics
import subprocess
import sys
import tempfile
import time

from plants import greatest_plant
from program import PROGRAM, build
from streams import frame, sensors_at
from watch import orders_at, telegrams

WORKERS = ["--workers", "2"]
RUNS = 5
MOST_ENTRIES = 50_000

# a position every so many seconds, and an order of the operators
POSITION_EVERY = 0.020
ORDER_EVERY = 0.010
POSITIONS = 500

# the goals
MOST_WALL = 1.3
MOST_MEMORY = 1.3
MOST_LATE_WAIT = 0.5
MOST_LATE_SECONDS = 0.001
MOST_MEDIAN_WAIT = 1.5
MOST_MEBIBYTES = 2048


def position(k: int) -> bytes:
    """The position of a number. Two of each four in a row ask for something else than the one before."""
    return frame(f"POS,{1000 * (k + 1)},{-100 * (k // 4 % 2)},0,0")


def order(k: int) -> bytes:
    return frame(f"TIE,T0,{'OPEN' if k % 2 else 'CLOSE'}")


def measured(words: list) -> tuple[int, float, float]:
    """The status of a run, its wall time and its peak memory in MiB, of which it is asked again and again."""
    started = time.monotonic()
    with subprocess.Popen([PROGRAM, *words], stdin=subprocess.DEVNULL, stdout=subprocess.DEVNULL) as program:
        peak = 0
        while program.poll() is None:
            try:
                found = re.search(r"VmHWM:\s*(\d+) kB", pathlib.Path(f"/proc/{program.pid}/status").read_text())
            except (FileNotFoundError, ProcessLookupError):
                break
            peak = int(found[1]) if found else peak
            time.sleep(0.002)
        status = program.wait()
    return status, time.monotonic() - started, peak / 1024


def watch_ratios(folder: pathlib.Path) -> tuple[float, float]:
    """How many times the wall time and the memory of `replay` the watch takes as two streams."""
    sensors, operators, all_of_it = (folder / name for name in ("sensors", "operators", "telegrams"))
    for path, said in ((sensors, [sensors_at]), (operators, [orders_at]), (all_of_it, [sensors_at, orders_at])):
        path.write_bytes(b"".join(telegrams(*said)))
    times: dict[str, list[float]] = {"run": [], "replay": []}
    peaks: dict[str, list[float]] = {"run": [], "replay": []}
    for _ in range(RUNS):
        for name, words in (("replay", ["replay", "demo", all_of_it]), ("run", ["run", "demo", sensors, operators, *WORKERS])):
            status, seconds, mebibytes = measured(words)
            assert status == 0, (name, status)
            times[name].append(seconds)
            peaks[name].append(mebibytes)
    for name in ("replay", "run"):
        print(f"the watch by {name}: {1e3 * statistics.median(times[name]):.0f} ms, {max(peaks[name]):.1f} MiB at most")
    return (
        statistics.median(times["run"]) / statistics.median(times["replay"]),
        max(peaks["run"]) / max(peaks["replay"]),
    )


class Answers:
    """The commands that a program has written so far, each with the moment at which its last frame came."""

    def __init__(self, thrusters: int) -> None:
        self.frames = 1 + thrusters
        self.rest = b""
        self.count = 0
        self.at: list[float] = []

    def take(self, read: bytes, now: float) -> None:
        *lines, self.rest = (self.rest + read).split(b"\n")
        for line in lines:
            if line.startswith((b"$CMD,", b"$THC,")):
                self.count += 1
                if self.count % self.frames == 0:
                    self.at.append(now)


def waits(command: str, plant: pathlib.Path, folder: pathlib.Path) -> list[float]:
    """How long each position waited for its command."""
    orders_path = folder / "orders"
    os.mkfifo(orders_path)
    words = [command, plant, "-"] + ([orders_path, *WORKERS] if command == "run" else [])
    answers, asked = Answers(12), []
    with subprocess.Popen([PROGRAM, *words], stdin=subprocess.PIPE, stdout=subprocess.PIPE) as program:
        positions = program.stdin.fileno()
        orders = os.open(orders_path, os.O_WRONLY) if command == "run" else positions
        out = program.stdout.fileno()
        next_position, next_order, ordered = time.monotonic(), time.monotonic() + ORDER_EVERY / 2, 0
        while len(answers.at) < POSITIONS:
            now = time.monotonic()
            if len(asked) < POSITIONS and now >= next_position:
                os.write(positions, position(len(asked)))
                asked.append(time.monotonic())
                next_position += POSITION_EVERY
            elif len(asked) < POSITIONS and now >= next_order:
                os.write(orders, order(ordered))
                ordered += 1
                next_order += ORDER_EVERY
            else:
                due = min(next_position, next_order) if len(asked) < POSITIONS else now + 1
                if select.select([out], [], [], max(0, due - now))[0]:
                    read = os.read(out, 65_536)
                    answers.take(read, time.monotonic())
                    assert read, "the program ended"
        if orders != positions:
            os.close(orders)
        program.stdin.close()
        while os.read(out, 65_536):
            pass
        assert program.wait() in (0, 1), program.returncode
    os.unlink(orders_path)
    return [answered - moment for moment, answered in zip(asked, answers.at)]


def main() -> int:
    build()
    with tempfile.TemporaryDirectory() as name:
        folder = pathlib.Path(name)
        wall, memory = watch_ratios(folder)
        plant = folder / "plant.toml"
        plant.write_text(greatest_plant())
        medians, lates = {}, {}
        for command in ("replay", "run"):
            found = sorted(waits(command, plant, folder))
            medians[command], lates[command] = statistics.median(found), found[len(found) * 99 // 100]
            print(
                f"a command's wait by {command}: {1e3 * medians[command]:.3f} ms in the middle, "
                f"{1e3 * lates[command]:.3f} ms at the 99th of a hundred"
            )
        sensors, operators = folder / "sensors", folder / "operators"
        sensors.write_bytes(b"".join(position(k) for k in range(MOST_ENTRIES // 2)))
        operators.write_bytes(b"".join(order(k) for k in range(MOST_ENTRIES // 2)))
        status, seconds, mebibytes = measured(["run", plant, sensors, operators, *WORKERS])
        print(f"{MOST_ENTRIES} items: status {status}, {seconds:.1f} s, {mebibytes:.0f} MiB at most")
    several = (os.cpu_count() or 1) >= 2
    missed = [
        goal
        for goal, is_met in (
            (f"the watch takes at most {MOST_WALL} of replay's wall time", wall <= MOST_WALL or not several),
            (f"and at most {MOST_MEMORY} of its memory", memory <= MOST_MEMORY),
            (f"the 99th wait is at most {MOST_LATE_WAIT} of replay's", lates["run"] <= MOST_LATE_WAIT * lates["replay"]),
            (f"and under {1e3 * MOST_LATE_SECONDS} ms", lates["run"] < MOST_LATE_SECONDS),
            (f"the middle wait is at most {MOST_MEDIAN_WAIT} of replay's", medians["run"] <= MOST_MEDIAN_WAIT * medians["replay"]),
            (f"{MOST_ENTRIES} items end with 0 or 1", status in (0, 1)),
            (f"and take at most {MOST_MEBIBYTES} MiB", mebibytes <= MOST_MEBIBYTES),
        )
        if not is_met
    ]
    for goal in missed:
        print(f"missed: {goal}", file=sys.stderr)
    return 1 if missed else 0


if __name__ == "__main__":
    sys.exit(main())
