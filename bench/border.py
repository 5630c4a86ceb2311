#!/usr/bin/env python3
"""Counts the demands on the border of what a plant can give that a floating-point solver judges wrongly.

Usage: bench/border.py [N]. It asks `dp check` and GLPK's simplex, which calculates in double precision, about N demands
that thrusts at their limits just meet, and about N that no thrusts meet, each the least step farther in yaw moment. The
solver is glpsol, of Debian's package glpk-utils; where it isn't there, a line says so and nothing is measured.

The plant has rings with no forbidden sector, and all its generators run. A demand is then feasible exactly where
weights of the rings' points, at least 0 and at most 1 in all for each thruster, give it: one linear program.
"""

import pathlib
import random
import re
import shutil
import subprocess
import sys
import tempfile

from plants import plant_text, points
from program import PROGRAM, build

# (a ring of an azimuth thruster is cut in two, and there are at most 64 choices of one piece for each thruster)
AZIMUTHS = 6
TUNNELS = 6
SEED = 1

Vector = tuple[int, int, int]


def lever(thruster: int) -> tuple[int, int]:
    """Where `plant_text` puts a thruster."""
    return 100 * thruster - 600, 50 * thruster - 300


def images(rings: list[list[list[int]]]) -> list[list[Vector]]:
    """The force and the yaw moment of each point of each ring."""
    levers = map(lever, range(len(rings)))
    return [[(x, y, lx * y - ly * x) for x, y in ring] for ring, (lx, ly) in zip(rings, levers)]


def farthest(lists: list[list[Vector]], w: Vector) -> Vector:
    """The sum of the images that are farthest along a vector: no sum of thrusts is farther."""
    ends = [max(ring, key=lambda v: sum(a * b for a, b in zip(w, v))) for ring in lists]
    return tuple(map(sum, zip(*ends)))


def holds_exactly(plant: pathlib.Path, demand: Vector) -> bool:
    words = ["check", "--", plant, *map(str, demand)]
    run = subprocess.run([PROGRAM, *words], capture_output=True, text=True, check=False)
    return run.stdout.splitlines()[1].startswith("INTACT,HOLDS")


def program_of(lists: list[list[Vector]], demand: Vector) -> str:
    """The linear program whose solutions are the weights, in the format of CPLEX."""
    weights = [[f"w{i}_{j}" for j in range(len(ring))] for i, ring in enumerate(lists)]
    sums = [
        " ".join(f"{v[axis]:+d} {name}" for ring, names in zip(lists, weights) for v, name in zip(ring, names))
        + f" = {demand[axis]}"
        for axis in range(3)
    ]
    rows = [*sums, *(" + ".join(names) + " <= 1" for names in weights)]
    return "Minimize\n zero: 0 w0_0\nSubject To\n" + "".join(f" r{k}: {row}\n" for k, row in enumerate(rows)) + "End\n"


def holds_in_floats(folder: pathlib.Path, lists: list[list[Vector]], demand: Vector) -> bool:
    program, solution = folder / "demand.lp", folder / "demand.sol"
    program.write_text(program_of(lists, demand))
    subprocess.run(["glpsol", "--lp", program, "--write", solution], capture_output=True, check=True)
    # (the state of the basic solution, primal and dual: f is feasible)
    return re.search(r"^s bas \d+ \d+ (\w)", solution.read_text(), re.MULTILINE)[1] == "f"


def main(count: int = 1000) -> int:
    if shutil.which("glpsol") is None:
        print("glpsol isn't there (Debian: apt-get install glpk-utils): nothing is measured")
        return 0
    build()
    draw = random.Random(SEED)
    rings = [points(14, k / 168) for k in range(AZIMUTHS)] + [points(2, k / 24) for k in range(TUNNELS)]
    lists = images(rings)
    with tempfile.TemporaryDirectory() as name:
        folder = pathlib.Path(name)
        plant = folder / "plant.toml"
        plant.write_text(plant_text("BORDER", [str(ring) for ring in rings], ['"S0"']))
        wrong = {True: [0, 0], False: [0, 0]}
        for _ in range(count):
            turning = draw.choice((-1, 1)) * draw.randint(1, 10)
            w = (draw.randint(-100_000, 100_000), draw.randint(-100_000, 100_000), turning)
            border = farthest(lists, w)
            past = (border[0], border[1], border[2] + (1 if turning > 0 else -1))
            for demand, holds in ((border, True), (past, False)):
                wrong[holds][0] += holds_exactly(plant, demand) != holds
                wrong[holds][1] += holds_in_floats(folder, lists, demand) != holds
    for holds, (exactly, in_floats) in wrong.items():
        where = "on the border" if holds else "1 kN·dm past it"
        print(f"{count} demands {where}: judged wrongly {exactly} by dp, {in_floats} by glpsol")
    return 0


if __name__ == "__main__":
    sys.exit(main(*map(int, sys.argv[1:])))
