#!/usr/bin/env python3
"""Times the proved program on plant files: one of the greatest plant, and the longest files of several shapes.

Usage: bench/plants.py. It runs ./dp once to build the program, then measures the program itself over an empty stream:
the user time and the peak memory of a run, and the line that it ends with.
"""

import math
import pathlib
import subprocess
import tempfile

from program import PROGRAM, build, peak_mebibytes, user_seconds

MOST_BYTES = 1_048_576
RUNS = 5

AXIS = "kp = 200\nki = 10\nkd = 500\nlimit = 1000000000\n"


def plant_text(name: str, rings: list[str], groups: list[str]) -> str:
    """A plant of eight sections and seven open ties, with thrusters of these rings and groups of these members."""
    wind = ", ".join("[0, 0, 0]" for _ in range(36))
    text = f'format = 2\nname = "{name}"\nband = [15, 15, 10000]\nwind = [{wind}]\n'
    text += "".join(f"[controller.{axis}]\n{AXIS}" for axis in ("surge", "sway", "yaw"))
    text += "".join(f'[[section]]\nname = "S{k}"\n' for k in range(8))
    text += "".join(f'[[tie]]\nname = "T{k}"\nends = ["S{k}", "S{k + 1}"]\nclosed = false\n' for k in range(7))
    text += "".join(
        f'[[generator]]\nname = "G{k}"\nsection = "S{k}"\npower = 9000\nrunning = true\n' for k in range(8)
    )
    for k, ring in enumerate(rings):
        text += (
            f'[[thruster]]\nname = "P{k}"\nsection = "S{k % 8}"\nat = [{100 * k - 600}, {50 * k - 300}]\nrated = 4000\n'
            f"thresholds = [25, 50, 75, 100]\nring = {ring}\nselected = true\n"
        )
    return text + "".join(f'[[group]]\nname = "L{k}"\nmembers = [{members}]\n' for k, members in enumerate(groups))


def greatest_plant() -> str:
    """Twelve thrusters, six of them with rings of two pieces each, so with 64 choices, and sixteen groups."""
    round_, line = "[[400, 0], [0, 400], [-400, 0], [0, -400]]", "[[0, 400], [0, -400]]"
    return plant_text("GREATEST", 6 * [round_] + 6 * [line], [f'"S{k % 8}", "P{k % 12}"' for k in range(16)])


def points(count: int, turn: float) -> list[list[int]]:
    """So many points, an even number, round a circle of the greatest thrust, the first of them at a part of a turn."""
    angles = [math.tau * (turn + k / count) for k in range(count // 2)]
    half = [[4 * round(500 * math.cos(angle)), 4 * round(500 * math.sin(angle))] for angle in angles]
    return half + [[-x, -y] for x, y in half]


def greatest_lists() -> str:
    """Twelve thrusters whose pieces have eight points each, six of them with two pieces, so with 64 choices.

    Sixteen groups are open ties, so that each loss leaves all thrusters and all choices.
    """
    two = [str(points(14, k / 168)) for k in range(6)]
    one = [f"{points(16, k / 192)}\nforbid = [[7, 0]]" for k in range(6)]
    return plant_text("LISTS", two + one, [f'"T{k % 7}"' for k in range(16)])


def repeated(piece: str) -> str:
    return piece * (MOST_BYTES // len(piece))


FILES = {
    "the greatest plant": greatest_plant(),
    "headers": repeated("[[tie]]\n"),
    "other headers": "".join(f"[t{k}]\n" for k in range(115_968)),
    "keys": "".join(f"k{k} = 1\n" for k in range(90_000)),
    "a list of numbers": "x = [" + repeated("1, ")[: MOST_BYTES - 8] + "1]",
    "nested lists": "x = " + "[" * 500_000 + "]" * 500_000,
    "a comment": "#" + "a" * (MOST_BYTES - 1),
    "a text": 'x = "' + "a" * (MOST_BYTES - 6) + '"',
}


def line_of(words: list) -> str:
    """The line of the error output of a run, or that it ends well."""
    run = subprocess.run([PROGRAM, *words], stdin=subprocess.DEVNULL, capture_output=True, text=True)
    return run.stderr.strip() or f"status {run.returncode}"


def main() -> None:
    build()
    with tempfile.TemporaryDirectory() as folder:
        for name, text in FILES.items():
            path = pathlib.Path(folder) / "plant.toml"
            path.write_text(text)
            words = ["replay", path, "-"]
            milliseconds = 1e3 * user_seconds(words, RUNS, (0, 3))
            mebibytes = peak_mebibytes(words)
            print(f"{name}, {len(text)} bytes: {milliseconds:.1f} ms user, {mebibytes:.1f} MiB at most, {line_of(words)}")


if __name__ == "__main__":
    main()
