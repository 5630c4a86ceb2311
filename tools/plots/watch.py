"""The picture of a watch: over time the demand and what is given of it, how each loss stands, the alarms, the orders."""

from collections.abc import Iterable
from dataclasses import dataclass

from matplotlib.axes import Axes
from matplotlib.collections import PolyCollection
from matplotlib.figure import Figure
from matplotlib.lines import Line2D
from matplotlib.patches import Rectangle
from matplotlib.textpath import TextPath
from matplotlib.ticker import MaxNLocator

from . import drawing
from .drawing import INK, PALE
from .history import AlarmSpan, History, Mark, Span

WIDTH, LEFT, RIGHT, HEAD, FOOT = 10.0, 1.05, 0.2, 0.75, 0.52
CURVE, PART, LANE, ROW, BETWEEN = 0.95, 0.6, 0.25, 0.19, 0.16
# The size of an order's name in points, and how far it stands from its tick in inches.
SIZE, ASIDE = 6.5, 0.07
WHITE = {"facecolor": "white", "edgecolor": "none", "pad": 0.5}
# So many columns a picture tells apart, and so many orders it tells by name.
COLUMNS, MOST_NAMED, MOST_NUMBERED = 1500, 24, 30
LOOKS = {
    "HOLDS": {"facecolor": "#d5ead3", "hatch": None},
    "LOST": {"facecolor": "#9c2f2f", "hatch": None},
    "SUPERSEDED": {"facecolor": "#e4e4e4", "hatch": "\\\\\\"},
    "PENDING": {"facecolor": "white", "hatch": None},
}
# What is shown of a column in which more than one state stood: the first of these.
WORST = ("LOST", "SUPERSEDED", "PENDING", "HOLDS")
DEMAND, GIVEN, ACTIVE, SEEN = "#222222", "#6fa8dc", "#e69f00", "#f7e3bb"
KINDS = (("switch", "switches"), ("order", "orders"), ("fault", "faulty lines"))
UNITS = ((3 * 3600, 3600, "h"), (300, 60, "min"), (0, 1, "s"))


def picture(name: str, history: History) -> Figure:
    """The picture of a watch on the plant of this name."""
    unit, axis = unit_of(history)
    causes = list(dict.fromkeys(it.cause for it in history.alarms))
    order = [*(it for it in history.lanes if it in causes), *(["SHORT"] if "SHORT" in causes else [])]
    named = rows_of(history) if len(history.marks) <= MOST_NAMED else None
    kinds = [kind for kind, _ in KINDS if any(it.kind == kind for it in history.marks)]
    rows = 1 + max((it.row for it in named), default=0) if named is not None else len(kinds)
    heights = [CURVE] * 3 + [PART, LANE * len(history.lanes) + 0.1, LANE * max(1, len(order)) + 0.1, ROW * rows + 0.05]
    height = HEAD + sum(heights) + BETWEEN * len(heights) + FOOT
    figure = drawing.new_figure(WIDTH, height)
    figure.suptitle(
        f"{name}: a watch", fontsize=13, x=0.2 / WIDTH, y=1 - 0.12 / height, ha="left", va="top", gid="title"
    )
    panels, top = [], HEAD
    for it in heights:
        box = (LEFT / WIDTH, 1 - (top + it) / height, 1 - (LEFT + RIGHT) / WIDTH, it / height)
        panels.append(figure.add_axes(box, sharex=panels[0] if panels else None))
        top += it + BETWEEN
    panels[0].set_xlim(history.start / unit, history.end / unit)
    curves(panels[:4], history, unit)
    lanes(panels[4], history, unit)
    alarms(panels[5], history, order, unit)
    if named is not None:
        named_marks(panels[6], named, unit)
    else:
        counted_marks(panels[6], history, kinds, unit)
    for axes in panels:
        axes.spines[["top", "right"]].set_visible(False)
        axes.tick_params(axis="x", labelbottom=axes is panels[-1], length=3 if axes is panels[-1] else 0)
    panels[-1].set_xlabel(axis)
    legend(figure, height)
    return figure


def unit_of(history: History) -> tuple[float, str]:
    """The seconds of the axis' unit, and what stands below it."""
    if not history.has_moments:
        return 1, "entries in their order, since no telegram of this log has a moment"
    seconds, name = next((seconds, name) for least, seconds, name in UNITS if history.end - history.start >= least)
    note = f"moment of the telegrams, {name}; orders have none, and stand between those that they came between"
    count = len(history.commands)
    if count > 2 * COLUMNS:
        columns = f"of each of {COLUMNS} columns the least and the greatest value, and the worst state"
        note += f"\n{count} commands: {columns}"
    return seconds, note


def curves(panels: list[Axes], history: History, unit: float) -> None:
    """Each component of the demand and what is given of it, held until the next command; and the part."""
    names = (("surge X", "kN", 1), ("sway Y", "kN", 1), ("yaw N", "kN·m", 10))
    end = history.end / unit
    for k, (axes, (name, units, divisor)) in enumerate(zip(panels, names)):
        demand = [(it.at / unit, it.demand[k] / divisor) for it in history.commands]
        given = [(it.at / unit, float(it.demand[k] * it.part) / divisor) for it in history.commands]
        axes.axhline(0, color=PALE, linewidth=0.5, zorder=0)
        if len(demand) > 2 * COLUMNS:
            band(axes, given, end, f"given {k}", facecolor=GIVEN, edgecolor=GIVEN, linewidth=1.6)
            band(axes, demand, end, f"demand {k}", facecolor="none", edgecolor=DEMAND, linewidth=0.6)
        else:
            held(axes, given, end, f"given {k}", color=GIVEN, linewidth=4, solid_capstyle="butt")
            held(axes, demand, end, f"demand {k}", color=DEMAND, linewidth=1.1)
        axes.set_ylabel(f"{name}\n{units}", rotation=0, ha="right", va="center")
        values = [0.0, *(value for _, value in demand)]
        room = max(0.12 * (max(values) - min(values)), 1.0)
        axes.set_ylim(min(values) - room, max(values) + room)
        axes.yaxis.set_major_locator(MaxNLocator(4, integer=True))
        if not demand:
            note = "no position was taken, and so no demand made"
            axes.text(0.01, 0.55, note, transform=axes.transAxes, fontsize=7, va="bottom")
    part = [(it.at / unit, float(100 * it.part)) for it in history.commands]
    if len(part) > 2 * COLUMNS:
        band(panels[3], part, end, "part", facecolor="#bbbbbb", edgecolor=DEMAND, linewidth=0.8)
    else:
        held(panels[3], part, end, "part", color=DEMAND, linewidth=1.1)
    panels[3].set_ylim(-5, 108)
    panels[3].set_yticks([0, 50, 100])
    panels[3].set_ylabel("part given\n%", rotation=0, ha="right", va="center")


def held(axes: Axes, points: list[tuple[float, float]], end: float, gid: str, **style) -> None:
    """A value that holds until the next."""
    if points:
        x, y = zip(*points, (end, points[-1][1]))
        marker = "o" if len(points) <= 60 else None
        marks = range(len(points))
        axes.plot(x, y, drawstyle="steps-post", gid=gid, marker=marker, markersize=2.5, markevery=marks, **style)


def band(axes: Axes, points: list[tuple[float, float]], end: float, gid: str, **style) -> None:
    """Of each column the least and the greatest value."""
    start = points[0][0]
    columns: dict[int, list[float]] = {}
    for at, value in points:
        columns.setdefault(int(COLUMNS * (at - start) / (end - start)), []).append(value)
    left = [start + k * (end - start) / COLUMNS for k in columns]
    least, most = [min(it) for it in columns.values()], [max(it) for it in columns.values()]
    ends = ([*left, end], [*least, least[-1]], [*most, most[-1]])
    axes.fill_between(*ends, step="post", gid=gid, zorder=2, **style)


def merged(spans: list[Span], start: float, end: float) -> list[tuple[float, float, str, int, int]]:
    """Spans of like state together, with their first and last version; where they are many, by columns, each of which
    has the worst state that stood in it."""
    joined = joined_of((it.start, it.end, it.state, it.version, it.version) for it in spans)
    if len(joined) <= COLUMNS:
        return (
            joined
            if len(spans) > MOST_NUMBERED
            else [(it.start, it.end, it.state, it.version, it.version) for it in spans]
        )
    width = (end - start) / COLUMNS
    columns: dict[int, tuple[str, int, int]] = {}
    for left, right, state, first, last in joined:
        for k in range(int((left - start) / width), min(int((right - start) / width), COLUMNS - 1) + 1):
            had = columns.get(k, (state, first, last))
            columns[k] = (min(state, had[0], key=WORST.index), had[1], last)
    return joined_of((start + k * width, start + (k + 1) * width, *columns[k]) for k in sorted(columns))


def joined_of(spans: Iterable[tuple]) -> list[tuple]:
    joined: list[tuple] = []
    for left, right, state, first, last in spans:
        if joined and joined[-1][2] == state:
            joined[-1] = (joined[-1][0], right, state, joined[-1][3], last)
        else:
            joined.append((left, right, state, first, last))
    return joined


def lanes(axes: Axes, history: History, unit: float) -> None:
    """A lane for each group: how its loss stood, with the version."""
    names = list(history.lanes)
    stand(axes, names)
    for k, name in enumerate(names):
        spans = merged(history.lanes[name], history.start, history.end)
        for state, look in LOOKS.items():
            boxes = [box(left / unit, right / unit, k) for left, right, it, _, _ in spans if it == state]
            if boxes:
                edge = INK if len(spans) <= 200 else "face"
                axes.add_collection(
                    PolyCollection(boxes, edgecolor=edge, linewidth=0.3, gid=f"lane {name} {state}", zorder=2, **look)
                )
        if len(spans) <= 200:
            for left, right, state, first, last in spans:
                versions = f"{first}" if first == last else f"{first} to {last}"
                middle, colour = (left + right) / 2 / unit, "white" if state == "LOST" else INK
                word(
                    axes, middle, k, [f"{state} {versions}", versions], (right - left) / unit, colour, f"version {name}"
                )


def stand(axes: Axes, names: list[str]) -> None:
    axes.set_ylim(len(names) - 0.4 if names else 0.6, -0.6)
    axes.set_yticks(range(len(names)))
    axes.set_yticklabels(names)
    axes.tick_params(axis="y", length=0)


def box(left: float, right: float, row: int, half: float = 0.4) -> list[tuple[float, float]]:
    return [(left, row - half), (right, row - half), (right, row + half), (left, row + half)]


def word(axes: Axes, x: float, y: float, texts: list[str], room: float, colour: str, gid: str) -> None:
    """The first of the texts for which there is room."""
    for text in texts:
        drawn = axes.text(x, y, text, fontsize=6.5, ha="center", va="center_baseline", color=colour, zorder=4, gid=gid)
        if width_of(axes, drawn) < 0.94 * room:
            return
        drawn.remove()


def width_of(axes: Axes, text) -> float:
    """In the units of the axis."""
    extent = text.get_window_extent(axes.figure.canvas.get_renderer())
    inverse = axes.transData.inverted()
    return inverse.transform((extent.x1, 0))[0] - inverse.transform((extent.x0, 0))[0]


def alarms(axes: Axes, history: History, causes: list[str], unit: float) -> None:
    """A lane for each cause: alarms from raised to cleared, and when they were acknowledged."""
    counts = {cause: sum(it.cause == cause for it in history.alarms) for cause in causes}
    many = len(history.alarms) > MOST_NUMBERED
    stand(axes, [f"alarm {cause}" + (f" ({counts[cause]})" if many else "") for cause in causes])
    for k, cause in enumerate(causes):
        held = [it for it in history.alarms if it.cause == cause]
        for seen, look in ((False, {"facecolor": ACTIVE, "hatch": "////"}), (True, {"facecolor": SEEN})):
            spans = [span for it in held if (span := active_span(it, history.end, seen))]
            boxes = [box(left / unit, right / unit, k, 0.28) for left, right in columns_of(spans, history)]
            if boxes:
                axes.add_collection(
                    PolyCollection(
                        boxes,
                        edgecolor=INK if not many else "face",
                        linewidth=0.4,
                        zorder=2,
                        gid=f"alarm {cause} {seen}",
                        **look,
                    )
                )
        if not many:
            for it in held:
                alarm_marks(axes, it, k, history.end, unit)
    if not causes:
        axes.set_yticks([0])
        axes.set_yticklabels(["alarms"])
        axes.set_ylim(0.6, -0.6)
        axes.text(0.01, 0.5, "no alarm was raised", transform=axes.transAxes, fontsize=7, va="center")


def active_span(it: AlarmSpan, end: float, seen: bool) -> tuple[float, float] | None:
    """While the alarm was active: until it was acknowledged, or from then on."""
    until = it.cleared if it.cleared is not None else end
    turn = min(max(it.acknowledged, it.raised), until) if it.acknowledged is not None else until
    left, right = (turn, until) if seen else (it.raised, turn)
    return (left, right) if right > left else None


def columns_of(spans: list[tuple[float, float]], history: History) -> list[tuple[float, float]]:
    """The spans; where they are many, the columns that they touch."""
    if len(spans) <= COLUMNS:
        return spans
    width = (history.end - history.start) / COLUMNS

    def column(time: float) -> int:
        return int((time - history.start) / width)

    touched = sorted({k for left, right in spans for k in range(column(left), column(right) + 1)})
    return [(history.start + k * width, history.start + (k + 1) * width) for k in touched]


def alarm_marks(axes: Axes, it: AlarmSpan, row: int, end: float, unit: float) -> None:
    if it.cleared is not None and (it.acknowledged is None or it.acknowledged > it.cleared):
        until = it.acknowledged if it.acknowledged is not None else end
        axes.plot([it.cleared / unit, until / unit], [row, row], color=INK, linewidth=0.8, linestyle=":", zorder=1.5)
    for at, marker, face, name in (
        (it.raised, ">", INK, "raised"),
        (it.cleared, "D", "white", "cleared"),
        (it.acknowledged, "o", "white", "acknowledged"),
    ):
        if at is not None:
            axes.plot(
                [at / unit],
                [row],
                marker=marker,
                markersize=5,
                markerfacecolor=face,
                markeredgecolor=INK,
                zorder=4,
                clip_on=False,
                gid=f"{name} {it.number}",
            )
    axes.annotate(
        f"{it.number}",
        (it.raised / unit, row),
        (5, 0),
        textcoords="offset points",
        fontsize=6.5,
        va="center_baseline",
        zorder=5,
        bbox=WHITE,
        gid=f"alarm number {it.number}",
    )


@dataclass(frozen=True)
class Placed:
    """An order with its row, and whether its name stands to the right of its tick."""

    mark: Mark
    row: int
    is_right: bool


def rows_of(history: History) -> list[Placed]:
    """Each order in the first row where its name has room. Widths are in inches here."""
    scale = (WIDTH - LEFT - RIGHT) / (history.end - history.start)
    rows: list[list[tuple[float, float]]] = []
    placed = []
    for mark in history.marks:
        at = (mark.at - history.start) * scale
        width = TextPath((0, 0), mark.text, size=SIZE).get_extents().width / 72 + ASIDE
        is_right = at + width < WIDTH - LEFT - RIGHT
        left, right = (at - ASIDE, at + width + ASIDE) if is_right else (at - width - ASIDE, at + ASIDE)
        row = next((k for k, taken in enumerate(rows) if all(right < a or left > b for a, b in taken)), len(rows))
        if row == len(rows):
            rows.append([])
        rows[row].append((left, right))
        placed.append(Placed(mark, row, is_right))
    return placed


def named_marks(axes: Axes, placed: list[Placed], unit: float) -> None:
    """Each order by its name beside its tick."""
    for it in placed:
        at, shift = it.mark.at / unit, 72 * ASIDE * (1 if it.is_right else -1)
        axes.axvline(at, color="#dddddd", linewidth=0.5, zorder=0)
        shape, width = ("x", 0.8) if it.mark.kind == "fault" else ("|", 1.8 if it.mark.kind == "switch" else 0.8)
        axes.plot(
            [at],
            [it.row],
            marker=shape,
            markersize=6,
            color=INK,
            markeredgewidth=width,
            zorder=5,
            clip_on=False,
            gid=f"tick {it.mark.text}",
        )
        axes.annotate(
            it.mark.text,
            (at, it.row),
            (shift, 0),
            textcoords="offset points",
            fontsize=SIZE,
            va="center_baseline",
            zorder=4,
            ha="left" if it.is_right else "right",
            bbox=WHITE,
            gid=f"mark {it.mark.text}",
        )
    axes.set_ylim(max((it.row for it in placed), default=0) + 0.6, -0.6)
    axes.set_yticks([])
    axes.set_ylabel("orders" if placed else "no orders", rotation=0, ha="right", va="center", labelpad=8)


def counted_marks(axes: Axes, history: History, kinds: list[str], unit: float) -> None:
    """A lane of ticks for each kind, with how many there are."""
    names = dict(KINDS)
    stand(axes, [f"{names[kind]} ({sum(it.kind == kind for it in history.marks)})" for kind in kinds])
    for k, kind in enumerate(kinds):
        at = ticks_of([it for it in history.marks if it.kind == kind], history)
        axes.vlines([it / unit for it in at], k - 0.35, k + 0.35, color=INK, linewidth=0.6, gid=f"ticks {kind}")


def ticks_of(marks: list[Mark], history: History) -> list[float]:
    """The times of the marks; where they are many, one for each column."""
    if len(marks) <= COLUMNS:
        return [it.at for it in marks]
    width = (history.end - history.start) / COLUMNS
    return [it.at for it in {int((it.at - history.start) / width): it for it in marks}.values()]


def legend(figure: Figure, height: float) -> None:
    def patch(**look) -> Rectangle:
        return Rectangle((0, 0), 1, 1, edgecolor=INK, linewidth=0.4, **look)

    def marker(shape: str, face: str) -> Line2D:
        return Line2D([0], [0], marker=shape, markerfacecolor=face, markeredgecolor=INK, linestyle="none", markersize=5)

    handles = [
        (Line2D([0], [0], color=DEMAND, linewidth=1.1), "demand"),
        (Line2D([0], [0], color=GIVEN, linewidth=4), "given"),
        *((patch(**look), f"loss {state}") for state, look in LOOKS.items() if state != "PENDING"),
        (patch(facecolor=ACTIVE, hatch="////"), "alarm active"),
        (patch(facecolor=SEEN), "active, acknowledged"),
        (marker(">", INK), "raised"),
        (marker("o", "white"), "acknowledged"),
        (marker("D", "white"), "cleared"),
        (Line2D([0], [0], color=INK, linewidth=0.8, linestyle=":"), "cleared, not acknowledged"),
    ]
    figure.legend(
        [it for it, _ in handles],
        [text for _, text in handles],
        loc="upper left",
        bbox_to_anchor=(0.2 / WIDTH, 1 - 0.36 / height),
        ncol=6,
        frameon=False,
        fontsize=6.8,
        handlelength=1.8,
        borderaxespad=0,
        columnspacing=1.4,
    )
