"""A check read beside its plant: how much of its reach each thruster gives, and where a loss falls short, by how much.

Each outcome is looked at anew, exactly: thrusts must lie in what their thrusters can give and meet the demand, and each
cut must show that its choice doesn't. So a text of another plant is refused, with its line.
"""

import math
from dataclasses import dataclass
from fractions import Fraction

from .plant import Plant, Region, choice_of, choices_of, dot, image, part_of_reach, regions_after
from .reading import Check, Holds, Lost
from .refusal import Refusal

# A cut that turns about a point farther off than so many decimetres is told by its force.
FAR = 5000


@dataclass(frozen=True)
class Use:
    """What a thruster gives, in kN ahead and to starboard, and which part of its reach in that direction this takes.

    The part is None where it has no reach: then it stays at its frozen thrust, or gives nothing."""

    thrust: tuple[Fraction, Fraction]
    part: Fraction | None
    is_frozen: bool


@dataclass(frozen=True)
class Shortfall:
    """The cut of the choice that comes nearest to the demand: how much is needed along it, and how much is in reach.

    Where `about` is a point, in dm ahead and to starboard, both are moments about it in kN·dm, which turn the bow to
    starboard, or to port where `turn` is -1. Else both are forces in kN along an angle from the bow in degrees."""

    needed: float
    reached: float
    part: Fraction
    about: tuple[float, float] | None
    turn: int
    angle: float
    choices: int

    def missing(self) -> float:
        return self.needed - self.reached


@dataclass(frozen=True)
class Finding:
    """The outcome of a loss: what the thrusters give where it holds, else the shortfall."""

    loss: str
    regions: list[Region]
    uses: list[Use] | None
    shortfall: Shortfall | None

    def holds(self) -> bool:
        return self.shortfall is None

    def most_used(self) -> Fraction:
        return max((use.part for use in self.uses or [] if use.part is not None), default=Fraction(0))


def findings(plant: Plant, check: Check) -> list[Finding]:
    """With nothing lost, then for each group in the plant's order."""
    names = [group.name for group in plant.groups]
    first = check.intact.line + 1
    for k, (name, _) in enumerate(check.groups):
        if k >= len(names) or name != names[k]:
            raise Refusal(first + k, f"the plant {plant.name} has no group {name} in this place")
    if len(check.groups) < len(names):
        raise Refusal(
            first + len(check.groups), f"the plant {plant.name} has a group {names[len(check.groups)]} in this place"
        )
    found = [finding(plant, "INTACT", None, check.intact, check.demand)]
    return found + [finding(plant, name, k, outcome, check.demand) for k, (name, outcome) in enumerate(check.groups)]


def finding(plant: Plant, loss: str, group: int | None, outcome: Holds | Lost, demand: tuple[int, int, int]) -> Finding:
    regions = regions_after(plant, group)
    if isinstance(outcome, Holds):
        return Finding(loss, regions, uses_of(plant, regions, outcome, demand), None)
    return Finding(loss, regions, None, shortfall_of(plant, regions, outcome, demand))


def uses_of(plant: Plant, regions: list[Region], outcome: Holds, demand: tuple[int, int, int]) -> list[Use]:
    if len(outcome.thrusts) != len(plant.thrusters):
        raise Refusal(
            outcome.line,
            f"the plant {plant.name} has {len(plant.thrusters)} thrusters, and here are {len(outcome.thrusts)}",
        )
    if not 0 <= outcome.choice < choices_of(regions):
        raise Refusal(outcome.line, f"the plant {plant.name} has {choices_of(regions)} choices of pieces here")
    images = [image(it.at, thrust) for it, thrust in zip(plant.thrusters, outcome.thrusts)]
    if tuple(map(sum, zip(*images))) != demand:
        raise Refusal(outcome.line, f"these thrusts don't meet the demand on the plant {plant.name}")
    uses = []
    for it, region, thrust, (_, piece) in zip(
        plant.thrusters, regions, outcome.thrusts, choice_of(regions, outcome.choice)
    ):
        part = part_of_reach(piece, (thrust[0] - region.fixed[0], thrust[1] - region.fixed[1]))
        if part is None or part > 1:
            raise Refusal(outcome.line, f"the thruster {it.name} of the plant {plant.name} can't give this thrust")
        uses.append(Use(thrust, part if piece else None, region.is_frozen))
    return uses


def shortfall_of(plant: Plant, regions: list[Region], outcome: Lost, demand: tuple[int, int, int]) -> Shortfall:
    choices = choices_of(regions)
    if len(outcome.cuts) != choices:
        raise Refusal(
            outcome.line,
            f"the plant {plant.name} has {choices} choices of pieces here, and here are {len(outcome.cuts)} cuts",
        )
    fixed = [image(it.at, region.fixed) for it, region in zip(plant.thrusters, regions)]
    left = tuple(whole - sum(parts) for whole, parts in zip(demand, zip(*fixed)))
    nearest = None
    for number, cut in enumerate(outcome.cuts):
        needed = dot(cut, left)
        pieces = choice_of(regions, number)
        reached = sum(
            max([0, *(dot(cut, image(it.at, point)) for point in piece)])
            for it, (_, piece) in zip(plant.thrusters, pieces)
        )
        if needed <= reached:
            raise Refusal(
                outcome.line,
                f"the cut of choice {number} doesn't show that the demand can't be met on the plant {plant.name}",
            )
        part = Fraction(reached) / needed
        if nearest is None or part > nearest[0]:
            nearest = (part, cut, needed, reached)
    return told(*nearest, choices)


def told(part: Fraction, cut: tuple[int, int, int], needed: int, reached: Fraction, choices: int) -> Shortfall:
    u, v, w = cut
    angle = math.degrees(math.atan2(v, u)) % 360
    if w and max(abs(u), abs(v)) <= FAR * abs(w):
        return Shortfall(
            needed / abs(w), float(reached) / abs(w), part, (-v / w, u / w), 1 if w > 0 else -1, angle, choices
        )
    size = math.hypot(u, v)
    return Shortfall(needed / size, float(reached) / size, part, None, 0, angle, choices)


def worst(found: list[Finding]) -> Finding:
    """Of the groups' losses that are lost the one that reaches the least part along its cut; where none is lost, the one
    in which a thruster is used most. Of equals it is the first."""
    losses = found[1:]
    lost = [it for it in losses if not it.holds()]
    return min(lost, key=lambda it: it.shortfall.part) if lost else max(losses, key=lambda it: it.most_used())
