"""A plant file, and what its thrusters can give with nothing lost and after the loss of a group.

The rules are those of docs/FORMATS.md. Numbers are those of the file: levers in dm, thrusts in kN, powers in kW. A
plant file that dp refuses may be read here; what a picture needs of it is looked at.
"""

import math
import pathlib
import tomllib
from dataclasses import dataclass
from fractions import Fraction
from typing import Any

from .refusal import PlantRefusal

Point = tuple[int, int]
ROOT = pathlib.Path(__file__).resolve().parent.parent.parent
# The built-in plant as a file.
DEMO = ROOT / "examples" / "plants" / "demo.toml"
MOST_POINTS = 8
QUARTERS = 4


@dataclass(frozen=True)
class Tie:
    name: str
    ends: tuple[str, str]
    closed: bool


@dataclass(frozen=True)
class Generator:
    name: str
    section: str
    power: int
    running: bool


@dataclass(frozen=True)
class Thruster:
    name: str
    section: str
    at: Point
    rated: int
    thresholds: tuple[int, ...]
    ring: tuple[Point, ...]
    forbid: tuple[tuple[int, int], ...]
    selected: bool
    frozen: Point | None
    barred: tuple[int, ...]

    def pieces(self) -> list[list[Point]]:
        """The pieces of the ring at full power, barred ones too."""
        return pieces_of(self.ring, self.forbid)

    def forbidden_edges(self) -> list[tuple[Point, Point]]:
        """The edges that the sectors cover."""
        count = len(self.ring)
        steps = [
            ((start + k) % count, (start + k + 1) % count)
            for start, end in self.forbid
            for k in range((end - start) % count)
        ]
        return [(self.ring[first], self.ring[second]) for first, second in steps]


@dataclass(frozen=True)
class Group:
    name: str
    members: tuple[str, ...]


@dataclass(frozen=True)
class Plant:
    name: str
    sections: tuple[str, ...]
    ties: tuple[Tie, ...]
    generators: tuple[Generator, ...]
    thrusters: tuple[Thruster, ...]
    groups: tuple[Group, ...]

    def lost_with(self, thruster: Thruster) -> list[int]:
        """The places of the groups that have the thruster, or its section, as a member."""
        return [k for k, group in enumerate(self.groups) if {thruster.name, thruster.section} & set(group.members)]


def cross(a: Point, b: Point) -> int:
    return a[0] * b[1] - a[1] * b[0]


def dot(a: tuple, b: tuple):
    return sum(x * y for x, y in zip(a, b))


def is_past_half_a_turn(first: Point, then: Point) -> bool:
    """Whether the turn from the first point to a later one of its run is more than half a turn."""
    return cross(first, then) < 0 or cross(first, then) == 0 and dot(first, then) > 0


def pieces_of(ring: tuple[Point, ...], forbid: tuple[tuple[int, int], ...]) -> list[list[Point]]:
    """The pieces of a ring: each is the hull of the origin and these points."""
    if len(ring) == 2:
        return [list(ring)]
    return [piece for run in runs_of(len(ring), forbid) for piece in wedges_of([ring[place] for place in run])]


def runs_of(count: int, forbid: tuple[tuple[int, int], ...]) -> list[list[int]]:
    """The places from the end of each forbidden sector to where the next begins."""
    if not forbid:
        return [[place % count for place in range(count + 1)]]
    begins = {start for start, _ in forbid}
    runs = []
    for end in sorted(end for _, end in forbid):
        length = next(k for k in range(count) if (end + k) % count in begins)
        runs.append([(end + k) % count for k in range(length + 1)])
    return runs


def wedges_of(run: list[Point]) -> list[list[Point]]:
    """The pieces of a run: each takes points up to 8, and none more than half a turn past its first."""
    wedges = [[run[0]]]
    for point in run[1:]:
        wedge = wedges[-1]
        if len(wedge) == MOST_POINTS or is_past_half_a_turn(wedge[0], point):
            wedge = [wedge[-1]]
            wedges.append(wedge)
        wedge.append(point)
    return wedges


@dataclass(frozen=True)
class Region:
    """What a thruster can give: its fixed thrust, and pieces, each by its number and its points in kN. A piece without
    points is the origin alone."""

    fixed: Point
    is_frozen: bool
    pieces: list[tuple[int | None, list[tuple[Fraction, Fraction]]]]

    def gives_nothing(self) -> bool:
        return not self.is_frozen and not self.pieces[0][1]


def islands_of(plant: Plant, live: set[str], lost: set[str]) -> dict[str, str]:
    """For each live section the first one that closed ties connect it with."""
    island = {section: section for section in plant.sections if section in live}
    joining = [tie for tie in plant.ties if tie.closed and tie.name not in lost and set(tie.ends) <= live]
    for _ in plant.sections:
        for tie in joining:
            least = min((island[end] for end in tie.ends), key=plant.sections.index)
            island.update({end: least for end in tie.ends})
    return island


def regions_after(plant: Plant, loss: int | None) -> list[Region]:
    """What each thruster can give after the loss of the group of this place, or with nothing lost."""
    lost = set(plant.groups[loss].members) if loss is not None else set()
    live = set(plant.sections) - lost
    island = islands_of(plant, live, lost)

    def is_standing(thruster: Thruster) -> bool:
        return thruster.selected and thruster.name not in lost and thruster.section in live

    def share_of(section: str) -> int:
        on = [name for name in island if island[name] == island[section]]
        power = sum(it.power for it in plant.generators if it.running and it.name not in lost and it.section in on)
        rated = sum(it.rated for it in plant.thrusters if is_standing(it) and it.section in on)
        return 100 * power // rated if rated else 0

    def region_of(thruster: Thruster) -> Region:
        if thruster.frozen and thruster.name in lost and thruster.selected and thruster.section in live:
            return Region(thruster.frozen, True, [(None, [])])
        quarter = sum(it <= share_of(thruster.section) for it in thruster.thresholds) if is_standing(thruster) else 0
        left = [(k, piece) for k, piece in enumerate(thruster.pieces()) if k not in thruster.barred]
        if not quarter or not left:
            return Region((0, 0), False, [(None, [])])
        part = Fraction(quarter, QUARTERS)
        return Region((0, 0), False, [(k, [(part * x, part * y) for x, y in piece]) for k, piece in left])

    return [region_of(thruster) for thruster in plant.thrusters]


def choices_of(regions: list[Region]) -> int:
    return math.prod(len(region.pieces) for region in regions)


def choice_of(regions: list[Region], number: int) -> list[tuple[int | None, list[tuple[Fraction, Fraction]]]]:
    """The piece that this choice takes of each thruster; the last thruster's varies fastest."""
    taken = []
    for region in reversed(regions):
        number, place = divmod(number, len(region.pieces))
        taken.append(region.pieces[place])
    return taken[::-1]


def part_of_reach(points: list, thrust: tuple[Fraction, Fraction]) -> Fraction | None:
    """The least part of a piece that has the thrust, from 0 on; None where no part has it."""
    if thrust == (0, 0):
        return Fraction(0)
    if len(points) == 2 and cross(*points) == 0 or len(points) == 1:
        ends = [point for point in points if cross(point, thrust) == 0 and dot(point, thrust) > 0]
        return Fraction(dot(ends[0], thrust), 1) / dot(ends[0], ends[0]) if ends else None
    for first, second in zip(points, points[1:]):
        area = cross(first, second)
        a, b = Fraction(cross(thrust, second)) / area, Fraction(cross(first, thrust)) / area
        if a >= 0 and b >= 0:
            return a + b
    return None


def image(at: Point, thrust: tuple) -> tuple:
    """The force and the yaw moment of a thrust at a lever."""
    return (thrust[0], thrust[1], at[0] * thrust[1] - at[1] * thrust[0])


def is_whole(value: Any) -> bool:
    return isinstance(value, int) and not isinstance(value, bool)


def need(holds: bool, place: str, what: str) -> None:
    if not holds:
        raise PlantRefusal(f"{place}: {what}")


def value(table: dict, place: str, key: str, kind: type, missing: Any = None) -> Any:
    need(key in table or missing is not None, f"{place}{key}", "missing")
    got = table.get(key, missing)
    need(isinstance(got, kind) and (kind is not int or is_whole(got)), f"{place}{key}", f"no {kind.__name__}")
    return got


def points(table: dict, place: str, key: str, missing: Any = None) -> tuple:
    got = value(table, place, key, list, missing)
    fits = all(isinstance(it, list) and len(it) == 2 and all(map(is_whole, it)) for it in got)
    need(fits, f"{place}{key}", "no list of pairs of whole numbers")
    return tuple(tuple(it) for it in got)


def numbers(table: dict, place: str, key: str, count: int | None = None, missing: Any = None) -> tuple:
    got = value(table, place, key, list, missing)
    need(all(map(is_whole, got)) and count in (None, len(got)), f"{place}{key}", "other numbers than the format's")
    return tuple(got)


def tables(document: dict, key: str, least: int, most: int) -> list[tuple[str, dict]]:
    got = value(document, "", key, list, None if least else [])
    need(least <= len(got) <= most and all(isinstance(it, dict) for it in got), key, f"not {least} to {most} tables")
    return [(f"{key}[{k}].", table) for k, table in enumerate(got)]


def thruster_of(place: str, table: dict) -> Thruster:
    ring = points(table, place, "ring")
    forbid = points(table, place, "forbid", [])
    need(2 <= len(ring) <= 16, f"{place}ring", "not 2 to 16 points")
    edges = list(zip(ring, ring[1:] + ring[:1]))
    is_round = len(ring) == 2 and cross(*ring) == 0 or len(ring) > 2 and all(cross(*edge) > 0 for edge in edges)
    need(is_round, f"{place}ring", "not convex round the origin")
    fits = all(0 <= it < len(ring) for sector in forbid for it in sector) and all(a != b for a, b in forbid)
    need(fits and not (forbid and len(ring) == 2), f"{place}forbid", "no places of the ring")
    return Thruster(
        name=value(table, place, "name", str),
        section=value(table, place, "section", str),
        at=numbers(table, place, "at", 2),
        rated=value(table, place, "rated", int),
        thresholds=numbers(table, place, "thresholds", 4),
        ring=ring,
        forbid=forbid,
        selected=value(table, place, "selected", bool),
        frozen=numbers(table, place, "frozen", 2) if "frozen" in table else None,
        barred=numbers(table, place, "barred", missing=[]),
    )


def tie_of(place: str, table: dict) -> Tie:
    ends = value(table, place, "ends", list)
    need(len(ends) == 2 and all(isinstance(it, str) for it in ends), f"{place}ends", "not two names")
    return Tie(value(table, place, "name", str), tuple(ends), value(table, place, "closed", bool))


def generator_of(place: str, table: dict) -> Generator:
    return Generator(
        name=value(table, place, "name", str),
        section=value(table, place, "section", str),
        power=value(table, place, "power", int),
        running=value(table, place, "running", bool),
    )


def group_of(place: str, table: dict) -> Group:
    members = value(table, place, "members", list)
    need(bool(members) and all(isinstance(it, str) for it in members), f"{place}members", "no names")
    return Group(value(table, place, "name", str), tuple(members))


def plant_of(document: dict) -> Plant:
    """The plant of a plant file's document."""
    need(value(document, "", "format", int) in (1, 2), "format", "neither 1 nor 2")
    plant = Plant(
        name=value(document, "", "name", str),
        sections=tuple(value(table, place, "name", str) for place, table in tables(document, "section", 1, 8)),
        ties=tuple(tie_of(*it) for it in tables(document, "tie", 0, 8)),
        generators=tuple(generator_of(*it) for it in tables(document, "generator", 0, 8)),
        thrusters=tuple(thruster_of(*it) for it in tables(document, "thruster", 1, 12)),
        groups=tuple(group_of(*it) for it in tables(document, "group", 1, 16)),
    )
    for k, tie in enumerate(plant.ties):
        need(set(tie.ends) <= set(plant.sections) and tie.ends[0] != tie.ends[1], f"tie[{k}].ends", "not two sections")
    for part, list_of in (("generator", plant.generators), ("thruster", plant.thrusters)):
        for k, it in enumerate(list_of):
            need(it.section in plant.sections, f"{part}[{k}].section", "no section")
    parts = [*plant.sections, *(it.name for it in (*plant.ties, *plant.generators, *plant.thrusters))]
    need(len(set(parts)) == len(parts), "top", "a name stands twice")
    for k, group in enumerate(plant.groups):
        need(set(group.members) <= set(parts), f"group[{k}].members", "no part of the plant")
    return plant


def read_plant(word: str, data: bytes | None = None) -> Plant:
    """The plant of a plant file, whose bytes may be given, or of the word `demo`."""
    try:
        return plant_of(tomllib.loads((path_of(word).read_bytes() if data is None else data).decode()))
    except tomllib.TOMLDecodeError as fault:
        raise PlantRefusal(f"{word}: no TOML document: {fault}") from None
    except PlantRefusal as fault:
        raise PlantRefusal(f"{word}: {fault}") from None
    except UnicodeDecodeError:
        raise PlantRefusal(f"{word}: no text") from None


def path_of(word: str) -> pathlib.Path:
    return DEMO if word == "demo" else pathlib.Path(word)
