"""The picture of a plant: the deck with each thruster's thrust region, each region enlarged, and the single-line
diagram with the redundancy groups."""

import itertools
import math

from matplotlib.axes import Axes
from matplotlib.figure import Figure
from matplotlib.lines import Line2D
from matplotlib.patches import Polygon, Rectangle

from . import drawing
from .drawing import INK, LETTERS, PALE, fill_of, hatch_of, metres
from .plant import Plant, Thruster, Tie, dot

PIECE, BARRED, FORBIDDEN = "#cfe0ee", "#e8a08a", "white"


# In inches: the least width, the height of the upper part, and a unit of the diagram up and at least across.
WIDTH, UPPER, UP, ACROSS = 9.6, 7.4, 0.5, 0.6
# Of the upper part: where the deck's axes begin, how wide they are at least, and what stands between them and the regions.
DECK_LEFT, DECK_WIDTH, BETWEEN = 0.6, 4.1, 0.05
# Of the diagram's width, the part for the names of the groups.
NAMES = 0.17


def picture(plant: Plant) -> Figure:
    at = Diagram(plant)
    lower = UP * at.height(plant) + 0.45
    width, height = max(WIDTH, ACROSS * (1 + NAMES) * at.right + 0.4), UPPER + lower
    deck_width = DECK_WIDTH + 0.4 * (width - WIDTH)
    figure = drawing.new_figure(width, height)
    title = f"{plant.name}: vessel, thrust regions and power"
    figure.text(0.2 / width, 1 - 0.12 / height, title, fontsize=13, va="top", gid="title")
    box = (DECK_LEFT / width, (lower + 0.55) / height, deck_width / width, (UPPER - 1.25) / height)
    deck(figure.add_axes(box), plant, deck_width)
    left = DECK_LEFT + deck_width + BETWEEN
    enlarged(figure, plant, left / width, lower / height, 1 - 0.45 / height)
    box = (0.2 / width, 0.05 / height, 1 - 0.4 / width, UP * at.height(plant) / height)
    single_line(figure.add_axes(box), plant, at)
    return figure


def to_deck(point: tuple) -> tuple[float, float]:
    """A point ahead and to starboard, in the picture's order: across, then up."""
    return (float(point[1]), float(point[0]))


def kilonewtons_a_metre(plant: Plant) -> float:
    """The scale of the rings on the deck: rings that aren't of tunnels hardly reach into one another."""
    length, most = drawing.Deck(plant).length, max(math.hypot(*point) for it in plant.thrusters for point in it.ring)
    broad = [it for it in plant.thrusters if len(it.ring) > 2]
    gaps = [
        math.dist(a.at, b.at) / 10 / reach_between(a, b)
        for a, b in itertools.combinations(broad, 2)
        if reach_between(a, b)
    ]
    return 1 / min([0.13 * length / most, *(max(0.95 * gap, 0.035 * length / most) for gap in gaps)])


def reach_between(a: Thruster, b: Thruster) -> float:
    """How far in kN two rings reach towards each other; 0 where they stand at one place."""
    distance = math.dist(a.at, b.at)
    if not distance:
        return 0.0
    way = ((b.at[0] - a.at[0]) / distance, (b.at[1] - a.at[1]) / distance)
    return max(0.0, *(dot(way, it) for it in a.ring)) + max(0.0, *(-dot(way, it) for it in b.ring))


def deck(axes: Axes, plant: Plant, width: float) -> None:
    """The deck on axes of this width in inches."""
    outline = drawing.Deck(plant)
    scale = kilonewtons_a_metre(plant)
    levers = [to_deck(tuple(map(metres, it.at))) for it in plant.thrusters]
    drawn = [
        (x + point[1] / scale, y + point[0] / scale) for it, (x, y) in zip(plant.thrusters, levers) for point in it.ring
    ]
    low = min(outline.stern, *(y for _, y in drawn)) - 0.09 * outline.length
    high = max(outline.bow, *(y for _, y in drawn)) + 0.02 * outline.length
    inner = max(outline.half, *(abs(x) for x, _ in drawn)) + 0.03 * outline.length
    half = max(0.5 * (high - low) * width / (UPPER - 1.25), inner + 0.25 * outline.length)
    outline.draw(axes)
    axes.set_xlim(-half, half)
    axes.set_ylim(low, high)
    for it, lever in zip(plant.thrusters, levers):
        region(axes, it, lever, 1 / scale, is_small=True)
        axes.plot(*lever, marker="o", markersize=2.6, color=INK, zorder=5, gid=f"lever {it.name}")
    texts, gids = [label_of(plant, it) for it in plant.thrusters], [f"label {it.name}" for it in plant.thrusters]
    drawing.side_labels(axes, levers, texts, inner, 7, 0.055 * (high - low), gids)
    axes.set_title("Deck, bow up: levers to scale", loc="left")
    axes.set_xlabel("m to starboard", labelpad=2)
    axes.set_ylabel("m ahead", labelpad=1)
    axes.spines[["top", "right"]].set_visible(False)
    force = nice(0.15 * outline.length * scale)
    left = -half + 0.03 * outline.length
    axes.plot([left, left + force / scale], [low + 0.02 * outline.length] * 2, color=INK, linewidth=2)
    axes.text(left, low + 0.03 * outline.length, f"{force} kN of thrust", fontsize=6.5, va="bottom")


def nice(value: float) -> int:
    """The greatest 1, 2 or 5 with zeros that isn't more."""
    power = 10 ** math.floor(math.log10(max(value, 1)))
    return int(max(k * power for k in (1, 2, 5) if k * power <= max(value, 1)))


def label_of(plant: Plant, thruster: Thruster) -> str:
    groups = ", ".join(LETTERS[k] for k in plant.lost_with(thruster))
    out = "" if thruster.selected else ", out"
    return f"{thruster.name}{out}\non {thruster.section}" + (f"; in {groups}" if groups else "")


def region(axes: Axes, thruster: Thruster, centre: tuple[float, float], scale: float, is_small: bool) -> None:
    """The pieces round a centre, so many units a kN; the forbidden sectors; the frozen thrust."""

    def at(point: tuple) -> tuple[float, float]:
        x, y = to_deck(point)
        return (centre[0] + scale * x, centre[1] + scale * y)

    line = 0.5 if is_small else 0.9
    for first, second in thruster.forbidden_edges():
        corners = [centre, at(first), at(second)]
        axes.add_patch(
            Polygon(corners, facecolor=FORBIDDEN, edgecolor="#777777", hatch="//////", linewidth=0, zorder=1)
        )
    for number, piece in enumerate(thruster.pieces()):
        is_barred = number in thruster.barred
        colour = BARRED if is_barred else PIECE
        is_line = len(piece) == 1 or len(thruster.ring) == 2
        if is_line:
            ends = [at(piece[0]), at(piece[1]) if len(piece) == 2 else centre]
            axes.plot(
                *zip(*ends),
                color=INK,
                linewidth=4 * line + 0.6,
                zorder=2,
                solid_capstyle="butt",
                gid=f"piece {thruster.name} {number}",
            )
            axes.plot(
                *zip(*ends),
                color=colour,
                linewidth=4 * line - 0.6,
                zorder=2.1,
                solid_capstyle="butt",
                linestyle="--" if is_barred else "-",
            )
        else:
            corners = [at(point) for point in piece]
            straight = is_straight(piece)
            axes.add_patch(
                Polygon(
                    corners if straight else [centre, *corners],
                    facecolor=colour,
                    edgecolor=INK,
                    linewidth=line,
                    hatch="xxxx" if is_barred else None,
                    zorder=2,
                    gid=f"piece {thruster.name} {number}",
                )
            )
    if not is_small:
        for quarter in (1, 2, 3):
            for number, piece in enumerate(thruster.pieces()):
                if len(piece) > 1 and len(thruster.ring) > 2:
                    inner = [at((x * quarter / 4, y * quarter / 4)) for x, y in piece]
                    axes.plot(*zip(*inner), color=INK, linewidth=0.4, linestyle=":", zorder=3)
        for number, piece in enumerate(thruster.pieces()):
            middle = [sum(c) / (len(piece) + 1) for c in zip(*piece)]
            if len(thruster.ring) == 2:
                middle = [c / 2 for c in piece[0]]
            elif len(piece) == 1:
                middle = [c * 0.55 for c in piece[0]]
            x, y = at(middle)
            text = f"{number}\nbarred" if number in thruster.barred else str(number)
            axes.text(
                x,
                y,
                text,
                fontsize=7,
                ha="center",
                va="center",
                zorder=5,
                bbox=WHITE,
                gid=f"number {thruster.name} {number}",
            )
    if thruster.frozen:
        x, y = at(thruster.frozen)
        axes.plot(
            [x],
            [y],
            marker="X",
            markersize=4 if is_small else 7,
            color="black",
            markeredgecolor="white",
            markeredgewidth=0.5,
            zorder=6,
            gid=f"frozen {thruster.name}",
        )


WHITE = {"facecolor": "white", "edgecolor": "none", "pad": 0.8, "alpha": 0.85}


def is_straight(piece: list) -> bool:
    """Whether the origin lies on the line from the piece's first point to its last."""
    (a, b), (c, d) = piece[0], piece[-1]
    return a * d == b * c


def enlarged(figure: Figure, plant: Plant, left: float, low: float, high: float) -> None:
    """Each thruster's region by itself, at a scale of its own, with how far it reaches."""
    height = figure.get_figheight()
    across = 2 if len(plant.thrusters) <= 8 else 3
    down = max(3, math.ceil(len(plant.thrusters) / across))
    bottom = low + 0.95 / height
    cell_width, cell_height = (0.99 - left) / across, (high - bottom) / down
    for k, thruster in enumerate(plant.thrusters):
        x, y = left + (k % across) * cell_width, high - (k // across + 1) * cell_height
        axes = figure.add_axes((x + 0.04 * cell_width, y + 0.09 * cell_height, 0.92 * cell_width, 0.74 * cell_height))
        enlarged_region(axes, thruster)
    legend(figure, plant, left, low, height)


def enlarged_region(axes: Axes, thruster: Thruster) -> None:
    axes.axis("off")
    axes.set_aspect("equal")
    points = [(0, 0), *thruster.ring, *([thruster.frozen] if thruster.frozen else [])]
    low, high = min(x for x, _ in points), max(x for x, _ in points)
    left, right = min(y for _, y in points), max(y for _, y in points)
    half = max(high - low, right - left) / 2
    axes.set_xlim((left + right) / 2 - 1.75 * half, (left + right) / 2 + 1.75 * half)
    axes.set_ylim((low + high) / 2 - 1.25 * half, (low + high) / 2 + 1.3 * half)
    axes.plot([0, 0], [low - 0.05 * half, high + 0.05 * half], color=PALE, linewidth=0.4, zorder=0)
    axes.plot([left - 0.05 * half, right + 0.05 * half], [0, 0], color=PALE, linewidth=0.4, zorder=0)
    region(axes, thruster, (0, 0), 1.0, is_small=False)
    shares = "/".join(map(str, thruster.thresholds))
    axes.set_title(
        f"{thruster.name}\n{thruster.rated} kW, {shares} %", fontsize=7, pad=3, gid=f"enlarged {thruster.name}"
    )
    usable = [point for piece in thruster.pieces() for point in piece]
    for axis, sign, across, up in (
        (0, 1, "center", "bottom"),
        (0, -1, "center", "top"),
        (1, 1, "left", "center"),
        (1, -1, "right", "center"),
    ):
        most = max(sign * point[axis] for point in usable)
        beside = [point[1 - axis] for point in usable if sign * point[axis] == most]
        middle = (min(beside) + max(beside)) / 2
        if most > 0:
            x, y = (middle, sign * (most + 0.07 * half)) if axis == 0 else (sign * (most + 0.1 * half), middle)
            axes.text(x, y, f"{most} kN", fontsize=6.5, ha=across, va=up, bbox=WHITE, gid=f"reach {thruster.name}")


def legend(figure: Figure, plant: Plant, left: float, low: float, height: float) -> None:
    handles = [
        (Rectangle((0, 0), 1, 1, facecolor=PIECE, edgecolor=INK, linewidth=0.6), "piece, with its number"),
        (Line2D([0], [0], color=INK, linewidth=0.6, linestyle=":"), "one, two, three quarters"),
    ]
    if any(it.forbid for it in plant.thrusters):
        handles.append(
            (
                Rectangle((0, 0), 1, 1, facecolor="white", edgecolor="#777777", hatch="//////", linewidth=0),
                "forbidden sector",
            )
        )
    if any(it.barred for it in plant.thrusters):
        handles.append(
            (Rectangle((0, 0), 1, 1, facecolor=BARRED, edgecolor=INK, hatch="xxxx", linewidth=0.6), "barred piece")
        )
    if any(it.frozen for it in plant.thrusters):
        handles.append((Line2D([0], [0], color="black", marker="X", linestyle="none", markersize=6), "frozen thrust"))
    figure.legend(
        [it for it, _ in handles],
        [text for _, text in handles],
        loc="lower left",
        bbox_to_anchor=(left, low + 0.45 / height),
        ncol=3,
        frameon=False,
        fontsize=7,
        handlelength=2.2,
        borderaxespad=0,
        columnspacing=1.2,
    )
    figure.text(
        left + 0.005,
        low + 0.1 / height,
        "Thrust regions enlarged, each at its own scale. Below the name: rated power, and\n"
        "the shares of power from which it gives one to four quarters of its thrust.",
        fontsize=6.5,
        va="bottom",
    )


def width_of(plant: Plant, section: str) -> int:
    """How many slots a section takes in the diagram."""
    return max(1, *(sum(it.section == section for it in parts) for parts in (plant.generators, plant.thrusters)))


EDGE, GAP = 0.7, 1.3
# How high generators stand, how low thrusters; how high a lane for a group is, and where the first begins.
ABOVE, BELOW, LANE, LANES = 1.2, -1.2, 0.5, -2.35
BAR = 0.17


class Diagram:
    """Where the parts stand in the single-line diagram: across for each part, for each section its two ends, and how
    high the ties go that don't join neighbours."""

    def __init__(self, plant: Plant):
        self.ends: dict[str, tuple[float, float]] = {}
        self.across: dict[str, float] = {}
        self.channels: dict[str, float] = {}
        x = 0.0
        for section in plant.sections:
            self.ends[section] = (x, x + width_of(plant, section) - 1 + 2 * EDGE)
            middle = sum(self.ends[section]) / 2
            for parts in (plant.generators, plant.thrusters):
                held = [it.name for it in parts if it.section == section]
                for k, name in enumerate(held):
                    self.across[name] = middle + k - (len(held) - 1) / 2
            x = self.ends[section][1] + GAP
        self.right = x - GAP
        self.place_ties(plant)

    def place_ties(self, plant: Plant) -> None:
        taken: set[tuple[str, str]] = set()
        for tie in plant.ties:
            first, second = ends = from_left(plant, tie)
            self.across[tie.name] = (self.ends[first][1] + self.ends[second][0]) / 2
            if plant.sections.index(second) - plant.sections.index(first) == 1 and ends not in taken:
                taken.add(ends)
            else:
                self.channels[tie.name] = ABOVE + 1.2 + 0.7 * len(self.channels)

    def top(self) -> float:
        return max([ABOVE + 1.0, *(it + 0.75 for it in self.channels.values())])

    def height(self, plant: Plant) -> float:
        """In units, with the title's line."""
        return self.top() - LANES + LANE * len(plant.groups) + 0.95


def from_left(plant: Plant, tie: Tie) -> tuple[str, str]:
    first, second = sorted(tie.ends, key=plant.sections.index)
    return first, second


def single_line(axes: Axes, plant: Plant, at: Diagram) -> None:
    room = NAMES * at.right
    axes.axis("off")
    axes.set_xlim(-room, at.right + 0.1)
    axes.set_ylim(at.top() + 0.5 - at.height(plant), at.top() + 0.5)
    axes.text(
        -room,
        at.top() + 0.45,
        "Single-line diagram, and below it what each redundancy group takes away",
        fontsize=9,
        va="top",
    )
    for section in plant.sections:
        left, right = at.ends[section]
        axes.add_patch(
            Rectangle((left, -BAR), right - left, 2 * BAR, facecolor=INK, zorder=3, gid=f"section {section}")
        )
        text = axes.text(
            (left + right) / 2,
            0,
            section,
            fontsize=8,
            weight="bold",
            color="white",
            va="center_baseline",
            ha="center",
            zorder=4,
            gid=f"name {section}",
        )
        drawing.fit(axes, text, right - left - 0.1)
    for it in plant.generators:
        hung(
            axes,
            (at.across[it.name], ABOVE),
            "G",
            it.running,
            it.name,
            f"{it.power} kW" + ("" if it.running else "\nstopped"),
        )
    for it in plant.thrusters:
        hung(
            axes,
            (at.across[it.name], BELOW),
            "M",
            it.selected,
            it.name,
            f"{it.rated} kW" + ("" if it.selected else "\nout"),
        )
    risers: dict[str, int] = {}
    for tie in plant.ties:
        draw_tie(axes, plant, at, tie, risers)
    groups(axes, plant, at, room)


def hung(axes: Axes, place: tuple[float, float], letter: str, is_on: bool, name: str, text: str) -> None:
    """A generator above its section, or a thruster's motor below."""
    x, y = place
    colour = INK if is_on else PALE
    axes.plot([x, x], [0, y], color=colour, linewidth=1, linestyle="-" if is_on else ":", zorder=2)
    axes.plot(
        [x],
        [y],
        marker="o",
        markersize=16,
        markerfacecolor="white",
        markeredgecolor=colour,
        zorder=3,
        gid=f"{letter} {name}",
    )
    axes.text(x, y, letter, fontsize=9, ha="center", va="center_baseline", zorder=4, color=colour)
    up = y > 0
    label = axes.annotate(
        f"{name}\n{text}",
        place,
        (0, 11 if up else -11),
        textcoords="offset points",
        fontsize=7,
        ha="center",
        va="bottom" if up else "top",
        gid=f"name {name}",
    )
    drawing.fit(axes, label, 0.96)


def draw_tie(axes: Axes, plant: Plant, at: Diagram, tie: Tie, risers: dict[str, int]) -> None:
    first, second = from_left(plant, tie)
    x, y = at.across[tie.name], at.channels.get(tie.name, 0.0)
    if tie.name in at.channels:
        left = at.ends[first][0] + 0.08 + 0.1 * risers.get(first, 0)
        right = at.ends[second][1] - 0.08 - 0.1 * risers.get(second, 0)
        risers.update({first: risers.get(first, 0) + 1, second: risers.get(second, 0) + 1})
        axes.plot([left, left, right, right], [0, y, y, 0], color=INK, linewidth=1.4, zorder=2)
        x = at.across[tie.name] = (left + right) / 2
    else:
        axes.plot([at.ends[first][1], at.ends[second][0]], [0, 0], color=INK, linewidth=1.4, zorder=2)
    face = INK if tie.closed else "white"
    axes.plot(
        [x], [y], marker="s", markersize=9, markerfacecolor=face, markeredgecolor=INK, zorder=4, gid=f"tie {tie.name}"
    )
    if not tie.closed:
        axes.plot([x], [y], marker=(2, 0, 45), markersize=9, color=INK, zorder=5)
    label = axes.annotate(
        f"{tie.name}\n{'closed' if tie.closed else 'open'}",
        (x, y),
        (0, 7),
        textcoords="offset points",
        fontsize=7,
        ha="center",
        va="bottom",
        linespacing=1.05,
        gid=f"name {tie.name}",
    )
    if tie.name not in at.channels:
        drawing.fit(axes, label, 0.96 * GAP)


def groups(axes: Axes, plant: Plant, at: Diagram, room: float) -> None:
    """A lane for each group below the diagram, which marks its members where they stand."""
    for k, group in enumerate(plant.groups):
        high, low = LANES - LANE * k, LANES - LANE * (k + 1) + 0.1
        axes.plot([0, at.right], [low - 0.05] * 2, color="#dddddd", linewidth=0.4, zorder=0)
        style = {"fontsize": 7.5, "ha": "right", "va": "center", "weight": "bold", "gid": f"group {group.name}"}
        text = axes.text(-0.12, (high + low) / 2, f"{LETTERS[k]}  {group.name}", **style)
        drawing.fit(axes, text, room - 0.15)
        for name in group.members:
            member(
                axes, at, k, name, f"member {group.name} {name}", *part_of_lane(plant, group.members, name, low, high)
            )
    note = "A section takes with it all that hangs on it. Ties: a black square is closed, a white one open."
    axes.text(0, LANES - LANE * len(plant.groups) - 0.05, note, fontsize=6.5, va="top")


def part_of_lane(plant: Plant, members: tuple[str, ...], name: str, low: float, high: float) -> tuple[float, float]:
    """The lane's height; where generators and thrusters share it, their half, above and below as in the diagram."""
    generators = {it.name for it in plant.generators} & set(members)
    thrusters = {it.name for it in plant.thrusters} & set(members)
    if generators and thrusters and name in generators | thrusters:
        middle = (low + high) / 2
        return (middle, high) if name in generators else (low, middle)
    return low, high


def member(axes: Axes, at: Diagram, group: int, name: str, gid: str, low: float, high: float) -> None:
    left, right = at.ends[name] if name in at.ends else (at.across[name] - 0.46, at.across[name] + 0.46)
    box = Rectangle((left, low), right - left, high - low, gid=gid)
    box.set(facecolor=fill_of(group), hatch=hatch_of(group), edgecolor=INK, linewidth=0.6, zorder=2)
    axes.add_patch(box)
    size = 6.5 if high - low > 0.3 else 5
    style = {"fontsize": size, "ha": "center", "va": "center", "zorder": 3, "bbox": WHITE | {"pad": 0.08 * size}}
    drawing.fit(axes, axes.text((left + right) / 2, (low + high) / 2, name, **style), right - left - 0.12)
