"""A check as an aligned table in kN, for a terminal."""

from .findings import Finding
from .plant import Plant
from .reading import Check
from .words import amount, angle_of, demand_text, part_text, percent, shortfall_lines, size_of

HEAD = ("loss", "verdict", "thruster", "ahead kN", "starboard kN", "kN", "from bow", "of its reach")
TO_THE_LEFT = 3


def text(plant: Plant, check: Check, found: list[Finding]) -> str:
    rows = [HEAD]
    for it in found:
        rows += rows_of(plant, it)
    widths = [max(len(row[k]) for row in rows if len(row) == len(HEAD)) for k in range(len(HEAD))]
    lines = [f"{plant.name}: {demand_text(check.demand)}", f"{part_text(check.part)}.", ""]
    for row in rows:
        if len(row) == len(HEAD):
            cells = [
                it.ljust(width) if k < TO_THE_LEFT else it.rjust(width)
                for k, (it, width) in enumerate(zip(row, widths))
            ]
        else:
            cells = [row[0].ljust(widths[0]), row[1].ljust(widths[1]), row[2]]
        lines.append("  ".join(cells).rstrip())
    lines += [
        "",
        "Thrusts are rounded, and the part of its reach that a thrust takes is rounded up. "
        "The text of the check is exact.",
    ]
    return "\n".join(lines) + "\n"


def rows_of(plant: Plant, found: Finding) -> list[tuple[str, ...]]:
    if not found.holds():
        first, place, *rest = shortfall_lines(found.shortfall)
        return [(found.loss, "LOST", f"{first} {place}"), *(("", "", line) for line in rest)]
    rows = []
    for k, (thruster, use) in enumerate(zip(plant.thrusters, found.uses)):
        head = (found.loss, "HOLDS") if k == 0 else ("", "")
        reach = percent(use.part) if use.part is not None else "frozen" if use.is_frozen else "none"
        angle = f"{angle_of(use.thrust):.0f}°" if any(use.thrust) else ""
        rows.append(
            (
                *head,
                thruster.name,
                amount(use.thrust[0]),
                amount(use.thrust[1]),
                amount(size_of(use.thrust)),
                angle,
                reach,
            )
        )
    return rows
