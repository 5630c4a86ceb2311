"""The text of a capability, and its plot, with the bow up.

For each direction that the wind comes from it has the greatest speed that all losses leave, with the loss that gives way
next, and beside it the reserves of the demand."""

import math
import re
from dataclasses import dataclass
from fractions import Fraction

from matplotlib.axes import Axes
from matplotlib.figure import Figure
from matplotlib.projections.polar import PolarAxes

from . import drawing
from .drawing import INK, LETTERS, PALE, fill_of, hatch_of
from .reading import NAME, NUMBER, OUTCOME_TEXT, Lines, numbers
from .words import demand_text

ANGLES = range(0, 36_000, 1_000)
MOST_SPEED = 1_000
LOSS = f"(?:INTACT|GROUP,{NAME})"
RESERVE = rf"(?:{NUMBER},{NUMBER}|ANY|FROZEN)"
INTACT, NONE = "INTACT", "NONE"


@dataclass(frozen=True)
class WindLimit:
    """Of a wind from this angle, in centidegrees from the bow clockwise: the greatest speed in dm/s that all losses
    leave, and the loss that gives way at the next; each is None where there is none.

    At the next speed the demand may be beyond a demand's limits."""

    angle: int
    speed: int | None
    loss: str | None
    is_beyond: bool


@dataclass(frozen=True)
class Capability:
    """The demand in kN, kN and kN·dm; for the intact plant and each group the reserve, which is a part of the demand,
    ANY or FROZEN; the group with the least; and the wind limits."""

    demand: tuple[int, int, int]
    reserves: tuple[tuple[str, Fraction | str], ...]
    worst: str
    limits: tuple[WindLimit, ...]


def read_capability(text: str) -> Capability:
    lines = Lines(text)
    demand = numbers(lines.take(rf"CAPABILITY(?:,{NUMBER}){{3}}", "the line CAPABILITY of a capability")[1:])
    reserves = [(INTACT, reserve_of(lines, lines.take(f"INTACT,{RESERVE}", "the line INTACT with a reserve")[1:]))]
    for fields in lines.take_while("RESERVE,", f"RESERVE,{NAME},{RESERVE}", "a line RESERVE"):
        reserves.append((fields[1], reserve_of(lines, fields[2:])))
    groups = [name for name, _ in reserves[1:]]
    worst = lines.take(f"WORST,{NAME}", "a line RESERVE or the line WORST")[1]
    if worst not in (*groups, NONE):
        lines.at -= 1
        lines.refuse("the line WORST names no group")
    limits = tuple(limit_of(lines, angle, [INTACT, *groups]) for angle in ANGLES)
    lines.take("END", "the line END")
    lines.end()
    return Capability(demand, tuple(reserves), worst, limits)


def reserve_of(lines: Lines, fields: list[str]) -> Fraction | str:
    if len(fields) == 1:
        return fields[0]
    top, bottom = numbers(fields)
    if top < 0 or bottom < 1:
        lines.at -= 1
        lines.refuse("this is no reserve")
    return Fraction(top, bottom)


def limit_of(lines: Lines, angle: int, losses: list[str]) -> WindLimit:
    """The lines of one angle: WIND, for each loss that holds an AT, and NEXT where a next speed is there."""
    fields = lines.take(rf"WIND,{angle},(?:{NUMBER}|{NONE}),(?:{LOSS}|{NONE})", f"the line WIND of {angle // 100}°")
    speed = None if fields[2] == NONE else int(fields[2])
    loss = None if fields[3] == NONE else fields[-1]
    if (loss is None) != (speed == MOST_SPEED) or loss not in (None, *losses) or not 0 <= (speed or 0) <= MOST_SPEED:
        lines.at -= 1
        lines.refuse("this is no wind limit")
    for name in losses if speed is not None else []:
        lines.take(f"AT,{told(name)},{OUTCOME_TEXT}", f"the line AT of {name}")
    is_beyond = False
    if loss is not None:
        line = lines.take(f"NEXT,{told(loss)},(?:{OUTCOME_TEXT}|BEYOND)", f"the line NEXT of {loss}")
        is_beyond = line[-1] == "BEYOND"
    return WindLimit(angle, speed, loss, is_beyond)


def told(loss: str) -> str:
    return loss if loss == INTACT else f"GROUP,{re.escape(loss)}"


WIDTH, HEIGHT, SIDE = 9.6, 7.2, 6.1
# How far out the cells with the letters of losses stand, and the angles, in parts of the outermost ring.
CELLS, CELL, ROUND = 1.06, 0.1, 1.24
WHITE = {"facecolor": "white", "edgecolor": "none", "pad": 0.8, "alpha": 0.9}
OF_PLOT = "rings: wind speed in m/s\nangles: where the wind comes from"


def picture(capability: Capability, name: str | None) -> Figure:
    """The plot, with the plant's name where it is known."""
    figure = drawing.new_figure(WIDTH, HEIGHT)
    left = 0.2 / WIDTH
    title = f"{name}: DP capability" if name else "DP capability"
    figure.text(left, 1 - 0.12 / HEIGHT, title, fontsize=13, va="top", gid="title")
    figure.text(left, 1 - 0.42 / HEIGHT, heading(capability), fontsize=9, va="top", linespacing=1.3, gid="demand")
    box = (0.35 / WIDTH, 0.32 / HEIGHT, SIDE / WIDTH, SIDE / HEIGHT)
    rose(figure.add_axes(box, projection="polar"), capability)
    figure.text(left, 0.14 / HEIGHT, OF_PLOT, fontsize=7, va="bottom", linespacing=1.35)
    beside(figure.add_axes((6.65 / WIDTH, 0.3 / HEIGHT, 2.8 / WIDTH, (HEIGHT - 1.3) / HEIGHT)), capability)
    return figure


def heading(capability: Capability) -> str:
    what = "Greatest wind that is held with nothing lost and after the loss of any one redundancy group"
    return f"{what}\nbeside a demand of {demand_text(capability.demand)}"


def look_of(capability: Capability, loss: str | None) -> dict:
    """How a loss's cells are filled. The intact plant's are plain and dark, and white is where nothing gives way."""
    if loss is None:
        return {"facecolor": "white"}
    if loss == INTACT:
        return {"facecolor": "#8c8c8c"}
    place = place_of(capability, loss)
    return {"facecolor": fill_of(place), "hatch": hatch_of(place)}


def place_of(capability: Capability, group: str) -> int:
    return [name for name, _ in capability.reserves[1:]].index(group)


def letter_of(capability: Capability, loss: str | None) -> str:
    if loss is None:
        return "–"
    return "int" if loss == INTACT else LETTERS[place_of(capability, loss)]


def rings_of(capability: Capability) -> tuple[float, float]:
    """The speed in m/s of the outermost ring, and that between rings."""
    most = max([10.0, *((it.speed or 0) / 10 for it in capability.limits)])
    step = next(step for step in (2.5, 5, 10, 20, 25) if most / step <= 6)
    return step * math.ceil(1.02 * most / step), step


def rose(axes: PolarAxes, capability: Capability) -> None:
    """The polar plot: the bow is up, angles go clockwise."""
    outer, step = rings_of(capability)
    rings = [k * step for k in range(1, round(outer / step) + 1)]
    axes.set_theta_zero_location("N")
    axes.set_theta_direction(-1)
    axes.set_ylim(0, (ROUND + 0.05) * outer)
    axes.spines["polar"].set_visible(False)
    axes.grid(False)
    axes.set_xticks([])
    axes.set_yticks([])
    turn = [math.radians(k) for k in range(361)]
    for ring in rings:
        axes.plot(turn, [ring] * len(turn), color=PALE, linewidth=0.5, zorder=0.5)
    for degrees in range(0, 360, 30):
        at = math.radians(degrees)
        axes.plot([at, at], [0, outer], color=PALE, linewidth=0.4, zorder=0.5)
        text = {0: "bow", 90: "starboard", 180: "stern", 270: "port"}.get(degrees, f"{degrees}°")
        turned = {90: -90, 270: 90}.get(degrees, 0)
        axes.text(at, ROUND * outer, text, fontsize=8, ha="center", va="center", rotation=turned)
    cells(axes, capability, outer)
    limits(axes, capability, outer)
    at = math.radians(clear_angle(capability, rings))
    for ring in rings:
        axes.text(at, ring, f"{ring:g}", fontsize=7, ha="center", va="center", bbox=WHITE, zorder=6, gid=f"ring {ring:g}")
    # A round clip's name in an SVG is another in each run, and nothing reaches beyond it.
    for it in axes.get_children():
        it.set_clip_on(False)


def clear_angle(capability: Capability, rings: list[float]) -> int:
    """The angle, between those that are decided, at which the rings' labels stand clearest of the curve; the first
    where several are clear."""
    ends = [point_at(it.angle / 100, (it.speed or 0) / 10) for it in capability.limits]
    curve = [
        (a[0] + part * (b[0] - a[0]), a[1] + part * (b[1] - a[1]))
        for a, b in zip(ends, [*ends[1:], ends[0]])
        for part in (0, 0.25, 0.5, 0.75)
    ]

    def clearance(degrees: int) -> float:
        labels = [point_at(degrees, ring) for ring in rings]
        return min(0.08 * rings[-1], *(math.dist(label, point) for label in labels for point in curve))

    return max(range(15, 360, 30), key=clearance)


def point_at(degrees: float, speed: float) -> tuple[float, float]:
    return speed * math.sin(math.radians(degrees)), speed * math.cos(math.radians(degrees))


def cells(axes: Axes, capability: Capability, outer: float) -> None:
    """Outside of the rings a cell for each angle, with the letter of the loss that gives way first."""
    for it in capability.limits:
        at, middle = math.radians(it.angle / 100), (CELLS + CELL / 2) * outer
        shape = {"width": math.radians(10), "bottom": CELLS * outer, "edgecolor": INK, "linewidth": 0.4, "zorder": 2}
        axes.bar([at], [CELL * outer], **shape, **look_of(capability, it.loss))
        letter = letter_of(capability, it.loss)
        style = {"fontsize": 7, "ha": "center", "va": "center", "zorder": 3, "bbox": WHITE}
        axes.text(at, middle, letter, **style, gid=f"limit {it.angle}")


def limits(axes: Axes, capability: Capability, outer: float) -> None:
    """The greatest speeds, with lines between them on which nothing is said."""
    angles = [math.radians(it.angle / 100) for it in capability.limits]
    speeds = [(it.speed or 0) / 10 for it in capability.limits]
    axes.fill([*angles, angles[0]], [*speeds, speeds[0]], facecolor="#dbe8f2", edgecolor="none", zorder=0.2)
    axes.plot([*angles, angles[0]], [*speeds, speeds[0]], color=INK, linewidth=1, zorder=3)
    axes.plot(
        angles, speeds, linestyle="none", marker="o", markersize=3.5, color=INK, zorder=4, gid="speeds"
    )
    beyond = [(at, speed) for at, speed, it in zip(angles, speeds, capability.limits) if it.is_beyond]
    if beyond:
        style = {
            "linestyle": "none",
            "marker": "^",
            "markersize": 8,
            "markerfacecolor": "white",
            "markeredgecolor": INK,
        }
        axes.plot(*zip(*beyond), zorder=5, gid="beyond", **style)
    for at, it in zip(angles, capability.limits):
        if it.speed is None:
            degrees = it.angle / 100
            turned = 90 - degrees if degrees <= 180 else 270 - degrees
            axes.text(
                at,
                0.88 * outer,
                "NONE",
                fontsize=6.5,
                ha="center",
                va="center",
                rotation=turned,
                zorder=4,
                gid=f"none {it.angle}",
            )


def beside(axes: Axes, capability: Capability) -> None:
    """The reserves as a table, which is the key of the letters too, the least wind, and what the signs say."""
    axes.axis("off")
    axes.set_xlim(0, 1)
    axes.set_ylim(-26, 0)
    for x, text, across in ((0.14, "loss", "left"), (0.98, "reserve", "right")):
        axes.text(x, -0.3, text, fontsize=7, ha=across, va="center_baseline")
    axes.plot([0.01, 0.98], [-0.75, -0.75], color=INK, linewidth=0.5)
    for k, (loss, reserve) in enumerate(capability.reserves):
        y = -1.4 - k
        shape = {"width": 0.1, "bottom": y - 0.36, "edgecolor": INK, "linewidth": 0.4}
        axes.bar([0.06], [0.72], **shape, **look_of(capability, loss))
        axes.text(0.06, y, letter_of(capability, loss), fontsize=7, ha="center", va="center_baseline", bbox=WHITE)
        style = {"fontsize": 8, "va": "center_baseline", "weight": "bold" if loss == capability.worst else "normal"}
        axes.text(0.14, y, loss, **style, gid=f"loss {loss}")
        axes.text(0.98, y, reserve_text(reserve), ha="right", **style, gid=f"reserve {loss}")
    y = -1.7 - len(capability.reserves)
    told = f"least reserve: {capability.worst}" if capability.worst != NONE else "least reserve: none is a number"
    axes.text(0, y, told, fontsize=8, va="center_baseline", gid="worst")
    axes.text(0, y - 0.9, f"least wind: {least_text(capability)}", fontsize=8, va="center_baseline", gid="least")
    axes.text(0, y - 2, "\n".join(notes_of(capability)), fontsize=7, va="top", linespacing=1.35, gid="notes")


def notes_of(capability: Capability) -> list[str]:
    notes = ["reserve: how many times the demand by itself can be", "given, rounded down; below 1 it can't be met"]
    reserves = [reserve for _, reserve in capability.reserves]
    if "ANY" in reserves:
        notes.append("any: nothing is demanded")
    if "FROZEN" in reserves:
        notes.append("frozen: a thruster stays at its frozen thrust")
    notes += ["dots: held at this wind speed and at all below it;", "between the dots nothing is said"]
    notes.append("letters outside: the loss that gives way next")
    if any(it.loss is None for it in capability.limits):
        notes.append("–: none gives way up to 100 m/s")
    if any(it.speed is None for it in capability.limits):
        notes.append("NONE: not held without any wind either")
    if any(it.is_beyond for it in capability.limits):
        notes.append("triangles: BEYOND, the next demand is past all limits")
    return notes


def least_text(capability: Capability) -> str:
    """The least of the greatest speeds, and the first angle that has it."""
    least = min(capability.limits, key=lambda it: -1 if it.speed is None else it.speed)
    if least.speed in (None, MOST_SPEED):
        return NONE if least.speed is None else "100 m/s, from each angle"
    return f"{speed_text(least.speed)} m/s from {least.angle // 100}°"


def speed_text(speed: int | None) -> str:
    """A speed of so many dm/s in m/s."""
    return NONE if speed is None else f"{speed // 10}.{speed % 10}"


def reserve_text(reserve: Fraction | str) -> str:
    """How many times the demand, rounded down, so that what falls short is told as less than 1."""
    if isinstance(reserve, str):
        return {"ANY": "any", "FROZEN": "frozen"}[reserve]
    hundredths = math.floor(100 * reserve)
    return f"× {hundredths // 100:,}.{hundredths % 100:02}".replace(",", " ")
