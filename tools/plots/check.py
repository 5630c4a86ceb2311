"""The picture of a check: for each loss a deck with the thrusts as arrows, or where it falls short."""

import math

from matplotlib.axes import Axes
from matplotlib.figure import Figure
from matplotlib.patches import Arc, Polygon

from . import drawing
from .drawing import INK, LETTERS, PALE, metres
from .findings import Finding
from .plant import Plant
from .reading import Check
from .vessel import nice, to_deck
from .words import amount, demand_text, part_text, percent, shortfall_lines, size_of

# In inches: how wide and high a deck's panel is, and what stands above and below the panels.
PANEL, DOWN, HEAD, FOOT, MARGIN = 3.2, 4.1, 0.68, 0.5, 0.2
# How long the longest arrow is, in parts of the deck: it ends before the labels and the panel's border.
LONGEST = 0.15
ROUNDED = "Below a name: the thrust, rounded, and the part of its reach that it takes, rounded up. The text is exact."


def picture(plant: Plant, check: Check, found: list[Finding]) -> Figure:
    """A deck for what was found of each loss."""
    across = 2 if len(found) in (2, 4) else 3
    figure = decks(plant, found, across, list(range(-1, len(plant.groups))), (HEAD, FOOT))
    width, height = figure.get_size_inches()
    figure.text(MARGIN / width, 1 - 0.12 / height, f"{plant.name}: check", fontsize=12, va="top", gid="title")
    demand = f"demand of {demand_text(check.demand)}"
    figure.text(MARGIN / width, 1 - 0.38 / height, demand, fontsize=9, va="top", gid="demand")
    note = f"{part_text(check.part)}.\n{ROUNDED}"
    figure.text(MARGIN / width, 0.1 / height, note, fontsize=7, va="bottom", gid="footnote")
    return figure


def decks(plant: Plant, found: list[Finding], across: int, places: list[int], room: tuple[float, float]) -> Figure:
    """A deck for each loss, with the place of its group or -1, and room above and below in inches."""
    down = math.ceil(len(found) / across)
    width, height = PANEL * across, DOWN * down + sum(room)
    figure = drawing.new_figure(width, height)
    scale = kilonewtons_a_metre(plant, found)
    with_text = not all(it.holds() for it in found)
    for k, (it, place) in enumerate(zip(found, places)):
        left, top = PANEL * (k % across), room[0] + DOWN * (k // across)
        box = ((left + 0.06) / width, 1 - (top + DOWN - 0.08) / height, (PANEL - 0.12) / width, (DOWN - 0.42) / height)
        panel(figure.add_axes(box), plant, it, place, scale, with_text)
    return figure


def kilonewtons_a_metre(plant: Plant, found: list[Finding]) -> float:
    """The scale of the arrows, the same on each deck."""
    most = max((size_of(use.thrust) for it in found for use in it.uses or []), default=0.0)
    return max(most, 1.0) / (LONGEST * drawing.Deck(plant).length)


def panel(axes: Axes, plant: Plant, found: Finding, place: int, scale: float, with_text: bool) -> None:
    """A deck, with room for a text below it where it stands beside one that has a text."""
    outline = drawing.Deck(plant)
    outline.draw(axes)
    axes.axis("off")
    low, high = outline.stern - 0.1 * outline.length, outline.bow + 0.02 * outline.length
    below = 0.24 * outline.length if with_text else 0.0
    box = axes.get_position(original=True)
    across = box.width * axes.figure.get_figwidth() / (box.height * axes.figure.get_figheight())
    half = 0.5 * across * (high - low + below)
    axes.set_xlim(-half, half)
    axes.set_ylim(low - below, high)
    letter = f"{LETTERS[place]}  " if place >= 0 else ""
    style = {} if found.holds() else {"color": "white", "backgroundcolor": INK}
    title = f"{letter}{found.loss}: {'HOLDS' if found.holds() else 'LOST'}"
    axes.set_title(title, fontsize=9, weight="bold", pad=5, gid=f"verdict {found.loss}", **style)
    levers = [to_deck(tuple(map(metres, it.at))) for it in plant.thrusters]
    for lever, region in zip(levers, found.regions):
        gone = region.gives_nothing()
        axes.plot(
            *lever, marker="x" if gone else "o", markersize=5 if gone else 3, color=PALE if gone else INK, zorder=5
        )
    if found.holds():
        arrows(axes, found, levers, scale)
        force = nice(LONGEST * outline.length * scale)
        left, foot = -half + 0.03 * outline.length, low + 0.02 * outline.length
        axes.plot([left, left + force / scale], [foot] * 2, color=INK, linewidth=2)
        axes.text(left, foot + 0.012 * outline.length, f"{force} kN", fontsize=6, va="bottom")
    else:
        falls_short(axes, found, outline, low - 0.01 * outline.length)
    texts = [label_of(plant, found, k) for k in range(len(plant.thrusters))]
    gids = [f"label {found.loss} {it.name}" for it in plant.thrusters]
    # The labels keep to the deck, above what is written below it.
    drawing.side_labels(
        axes,
        levers,
        texts,
        outline.half + 0.1 * outline.length,
        6.5,
        0.085 * (high - low),
        gids,
        (low + 0.08 * outline.length, high),
    )


def label_of(plant: Plant, found: Finding, k: int) -> str:
    name = plant.thrusters[k].name
    if found.uses is None:
        region = found.regions[k]
        return f"{name}\nfrozen" if region.is_frozen else f"{name}\ngives nothing" if region.gives_nothing() else name
    use = found.uses[k]
    if use.part is None:
        return f"{name}\nfrozen, {amount(size_of(use.thrust))} kN" if use.is_frozen else f"{name}\ngives nothing"
    return f"{name}\n{amount(size_of(use.thrust))} kN, {percent(use.part)}"


def arrows(axes: Axes, found: Finding, levers: list[tuple[float, float]], scale: float) -> None:
    for is_frozen, gid in ((False, "thrusts"), (True, "frozen")):
        drawn = [
            (lever, use.thrust)
            for lever, use in zip(levers, found.uses)
            if use.is_frozen == is_frozen and any(use.thrust)
        ]
        if drawn:
            x, y = zip(*(lever for lever, _ in drawn))
            u, v = zip(*((float(thrust[1]) / scale, float(thrust[0]) / scale) for _, thrust in drawn))
            face = "white" if is_frozen else "#1f4e79"
            axes.quiver(
                x,
                y,
                u,
                v,
                angles="xy",
                scale_units="xy",
                scale=1,
                units="inches",
                width=0.027,
                headwidth=3.4,
                headlength=4,
                headaxislength=3.6,
                minlength=0.5,
                facecolor=face,
                edgecolor=INK,
                linewidth=0.5,
                zorder=4,
                gid=f"{gid} {found.loss}",
            )


def falls_short(axes: Axes, found: Finding, outline: drawing.Deck, top: float) -> None:
    """The point about which the plant can't turn enough, or the way in which it can't push enough."""
    shortfall = found.shortfall
    if shortfall.about is not None:
        x, y = to_deck(tuple(map(metres, shortfall.about)))
        turn_about(axes, (x, y), shortfall.turn, outline, found.loss)
    else:
        way = (math.sin(math.radians(shortfall.angle)), math.cos(math.radians(shortfall.angle)))
        size = 0.3 * outline.length
        axes.quiver(
            [0],
            [0],
            [size * way[0]],
            [size * way[1]],
            angles="xy",
            scale_units="xy",
            scale=1,
            units="inches",
            width=0.058,
            headwidth=2.6,
            headlength=2.4,
            headaxislength=2.4,
            facecolor="white",
            edgecolor=INK,
            linewidth=1,
            hatch="////",
            zorder=4,
            gid=f"short {found.loss}",
        )
    axes.text(
        0,
        top,
        "\n".join(shortfall_lines(shortfall)),
        fontsize=6.8,
        ha="center",
        va="top",
        linespacing=1.25,
        gid=f"shortfall {found.loss}",
    )


def turn_about(axes: Axes, place: tuple[float, float], turn: int, outline: drawing.Deck, loss: str) -> None:
    """A turning arrow about a point of the deck. Beside it stand labels, so a point there is only told in the text."""
    x, y = place
    radius = 0.09 * outline.length
    if not (abs(x) <= outline.half and outline.stern <= y <= outline.bow - radius):
        return
    axes.plot([x], [y], marker="+", markersize=9, markeredgewidth=1.6, color=INK, zorder=6, gid=f"about {loss}")
    # Clockwise turns the bow to starboard.
    start, end = (150, 30) if turn > 0 else (30, 150)
    axes.add_patch(Arc((x, y), 2 * radius, 2 * radius, theta1=30, theta2=150, color=INK, linewidth=1.8, zorder=6))
    tip = (x + radius * math.cos(math.radians(end)), y + radius * math.sin(math.radians(end)))
    along = (math.sin(math.radians(end)) * turn, -math.cos(math.radians(end)) * turn)
    across = (-along[1], along[0])
    size = 0.035 * outline.length
    corners = [
        (tip[0] + size * along[0], tip[1] + size * along[1]),
        (tip[0] + 0.6 * size * across[0], tip[1] + 0.6 * size * across[1]),
        (tip[0] - 0.6 * size * across[0], tip[1] - 0.6 * size * across[1]),
    ]
    axes.add_patch(Polygon(corners, facecolor=INK, edgecolor=INK, zorder=6))
