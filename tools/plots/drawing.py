"""What the pictures share: their style, colours that grey keeps apart, the deck, and labels that don't overlap.

A picture is a matplotlib Figure. What is drawn of a text has a gid that says what it is, by which tests/pictures
compares it with the text.
"""

import pathlib
from collections.abc import Sequence

import matplotlib
from matplotlib.axes import Axes
from matplotlib.backends.backend_agg import FigureCanvasAgg
from matplotlib.figure import Figure
from matplotlib.patches import PathPatch
from matplotlib.path import Path
from matplotlib.text import Text

from .plant import Plant
from .refusal import UsageFault

FORMATS = {".svg": "svg", ".png": "png", ".pdf": "pdf"}
STYLE = {
    "font.family": "DejaVu Sans",
    "font.size": 8,
    "axes.titlesize": 9,
    "axes.labelsize": 8,
    "axes.linewidth": 0.6,
    "xtick.labelsize": 7,
    "ytick.labelsize": 7,
    "legend.fontsize": 7,
    "hatch.linewidth": 0.5,
    "lines.linewidth": 1.2,
    "savefig.dpi": 120,
    "svg.hashsalt": "dp",
    "svg.fonttype": "path",
    "pdf.fonttype": 42,
    "axes.unicode_minus": False,
}
INK, PALE, SEA, HULL = "#222222", "#999999", "#f4f7f9", "#fbfbf8"
# Fills and hatches that stay apart in grey. The fills are light, so that text on them can be read, and the hatches have
# no dots, which take much room in a file.
FILLS = ("#9fc5e8", "#f6cf8b", "#b8dba4", "#e6b3cf", "#d9d2a0", "#a7d8d4", "#d4c2ea", "#f0b6a0")
HATCHES = (
    "////",
    "",
    "\\\\\\\\",
    "xxxx",
    "----",
    "||||",
    "++++",
    "//",
    "\\\\",
    "--",
    "||",
    "xx",
    "++",
    "//--",
    "\\\\||",
    "////||",
)
LETTERS = "abcdefghijklmnop"


def fill_of(place: int) -> str:
    return FILLS[place % len(FILLS)]


def hatch_of(place: int) -> str:
    return HATCHES[place % len(HATCHES)]


def new_figure(width: float, height: float) -> Figure:
    """An empty picture of so many inches. What a user's own matplotlibrc says changes nothing."""
    matplotlib.rcdefaults()
    matplotlib.rcParams.update(STYLE)
    figure = Figure(figsize=(width, height), facecolor="white")
    FigureCanvasAgg(figure)
    return figure


def save(figure: Figure, out: str) -> None:
    """Writes the picture in the format of the file's ending. The same text gives the same bytes."""
    form = FORMATS.get(pathlib.Path(out).suffix.lower())
    if form is None:
        raise UsageFault(f"{out}: the ending is none of {', '.join(FORMATS)}")
    dates = {"svg": {"Date": None}, "pdf": {"CreationDate": None}, "png": {}}
    figure.savefig(out, format=form, metadata=dates[form])


def spread(targets: Sequence[float], gap: float, low: float, high: float) -> list[float]:
    """Places near ascending targets, from low to high and at least a gap apart, where there is room."""
    if not targets:
        return []
    gap = min(gap, (high - low) / max(1, len(targets) - 1))
    up, down = list(targets), list(targets)
    for k in range(1, len(targets)):
        up[k] = max(up[k], up[k - 1] + gap)
    for k in range(len(targets) - 2, -1, -1):
        down[k] = min(down[k], down[k + 1] - gap)
    places = [(a + b) / 2 for a, b in zip(up, down)]
    places[0] = max(places[0], low)
    for k in range(1, len(places)):
        places[k] = max(places[k], places[k - 1] + gap)
    places[-1] = min(places[-1], high)
    for k in range(len(places) - 2, -1, -1):
        places[k] = min(places[k], places[k + 1] - gap)
    return places


def metres(decimetres: float) -> float:
    return decimetres / 10


class Deck:
    """A deck with the bow up: metres to starboard across, metres ahead upwards.

    The outline is a sketch round the levers, since a plant file has none."""

    def __init__(self, plant: Plant):
        ahead = [metres(it.at[0]) for it in plant.thrusters]
        aside = max(abs(metres(it.at[1])) for it in plant.thrusters)
        self.length = max(max(ahead) - min(ahead), 20.0)
        self.stern, self.bow = min(ahead) - 0.07 * self.length, max(ahead) + 0.13 * self.length
        self.half = max(aside + 0.045 * self.length, 0.095 * self.length)

    def draw(self, axes: Axes) -> None:
        stern, bow, half = self.stern, self.bow, self.half
        shoulder = bow - 0.24 * (bow - stern)
        corner = 0.3 * half
        vertices = [
            (0, bow),
            (half * 0.75, bow - 0.04 * self.length),
            (half, shoulder),
            (half, shoulder),
            (half, stern + corner),
            (half, stern),
            (half - corner, stern),
            (-half + corner, stern),
            (-half, stern),
            (-half, stern + corner),
            (-half, shoulder),
            (-half, shoulder),
            (-half * 0.75, bow - 0.04 * self.length),
            (0, bow),
        ]
        codes = [
            Path.MOVETO,
            Path.CURVE4,
            Path.CURVE4,
            Path.CURVE4,
            Path.LINETO,
            Path.CURVE3,
            Path.CURVE3,
            Path.LINETO,
            Path.CURVE3,
            Path.CURVE3,
            Path.LINETO,
            Path.CURVE4,
            Path.CURVE4,
            Path.CURVE4,
        ]
        axes.add_patch(PathPatch(Path(vertices, codes), facecolor=HULL, edgecolor=PALE, linewidth=0.8, zorder=0))
        axes.plot([0, 0], [stern, bow], color=PALE, linewidth=0.4, linestyle=(0, (8, 3, 1, 3)), zorder=0.5)
        axes.set_aspect("equal")


def side_labels(
    axes: Axes,
    points: list[tuple[float, float]],
    texts: list[str],
    inner: float,
    size: float,
    gap: float,
    gids: list[str],
    within: tuple[float, float] | None = None,
) -> None:
    """A label for each point in the columns past `inner` metres on either side, with a line to its point. Those on the
    centre line go to the emptier side."""
    sides: dict[int, list[int]] = {-1: [], 1: []}
    centre = []
    for k, (x, _) in enumerate(points):
        (sides[1] if x > 0 else sides[-1] if x < 0 else centre).append(k)
    for k in sorted(centre, key=lambda k: -points[k][1]):
        near = {side: sum(abs(points[j][1] - points[k][1]) < 2 * gap for j in sides[side]) for side in sides}
        sides[min((-1, 1), key=lambda side: (near[side], len(sides[side])))].append(k)
    low, high = within or axes.get_ylim()
    room = 0.5 * gap
    for side, held in sides.items():
        held.sort(key=lambda k: points[k][1])
        places = spread([points[k][1] for k in held], gap, low + room, high - room)
        for k, place in zip(held, places):
            x, y = points[k]
            axes.plot([x, side * inner], [y, place], color=INK, linewidth=0.4, zorder=6, solid_capstyle="round")
            axes.text(
                side * (inner + 0.012 * (high - low)),
                place,
                texts[k],
                fontsize=size,
                va="center",
                zorder=7,
                ha="left" if side > 0 else "right",
                linespacing=1.1,
                gid=gids[k],
            )


def fit(axes: Axes, text: Text, width: float, least: float = 4.5) -> None:
    """Makes a text smaller until it fits into so many data units, and else turns it."""
    renderer = axes.figure.canvas.get_renderer()
    room = axes.transData.transform((width, 0))[0] - axes.transData.transform((0, 0))[0]
    while text.get_window_extent(renderer).width > room and text.get_fontsize() > least:
        text.set_fontsize(text.get_fontsize() - 0.5)
    if text.get_window_extent(renderer).width > room:
        text.set_rotation(90)
