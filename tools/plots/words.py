"""How quantities are told: kN, kN·m, metres, degrees from the bow. Numbers are rounded for the eye."""

import math
from fractions import Fraction


def amount(value: float) -> str:
    """With one decimal below 10, else whole, in threes of digits."""
    value = float(value)
    text = f"{value:.1f}" if 0 < abs(value) < 9.95 else f"{value:.0f}"
    whole, _, decimals = text.lstrip("-").partition(".")
    text = f"{int(whole):,}".replace(",", " ") + ("." + decimals if decimals else "")
    is_zero = float(text.replace(" ", "")) == 0
    return "0" if is_zero else ("-" if value < 0 else "") + text


def percent(part: Fraction) -> str:
    """Rounded up, so that what is told as less than all is less."""
    return f"{math.ceil(100 * part)} %"


def percent_down(part: Fraction) -> str:
    """To a tenth, rounded down, so that what falls short is told as less than 100 %."""
    return f"{math.floor(1000 * part) / 10:.1f} %"


def part_text(part: Fraction) -> str:
    """Which part of the demand can be given."""
    return f"With nothing lost, {'all' if part == 1 else percent_down(part)} of the demand can be given"


def demand_text(demand: tuple[int, int, int]) -> str:
    x, y, n = demand
    return ", ".join(
        (
            f"{amount(abs(x))} kN {'astern' if x < 0 else 'ahead'}",
            f"{amount(abs(y))} kN to {'port' if y < 0 else 'starboard'}",
            f"{moment(n)} bow to {'port' if n < 0 else 'starboard'}" if n else "no yaw moment",
        )
    )


def moment(decimetres: float) -> str:
    """A moment of so many kN·dm, without its sign."""
    return f"{amount(abs(decimetres) / 10)} kN·m"


def place_text(about: tuple[float, float]) -> str:
    ahead, aside = about[0] / 10, about[1] / 10
    parts = [f"{abs(ahead):.1f} m {'aft' if ahead < 0 else 'ahead'}"]
    if abs(aside) >= 0.05:
        parts.append(f"{abs(aside):.1f} m to {'port' if aside < 0 else 'starboard'}")
    return ", ".join(parts)


def angle_of(thrust: tuple) -> float:
    """Clockwise from the bow, in degrees."""
    return math.degrees(math.atan2(float(thrust[1]), float(thrust[0]))) % 360


def size_of(thrust: tuple) -> float:
    return math.hypot(float(thrust[0]), float(thrust[1]))


def shortfall_lines(shortfall) -> list[str]:
    """How a loss falls short: along what, how much is needed, within reach and missing."""
    if shortfall.about is not None:
        unit, (needed, reached, missing) = "kN·m", (
            it / 10 for it in (shortfall.needed, shortfall.reached, shortfall.missing())
        )
        along = f"turning the bow to {'starboard' if shortfall.turn > 0 else 'port'} about"
        place = place_text(shortfall.about)
    else:
        unit, (needed, reached, missing) = "kN", (shortfall.needed, shortfall.reached, shortfall.missing())
        along, place = "pushing towards", f"{shortfall.angle:.0f}° from the bow"
    return [
        f"falls short in {along}",
        place,
        f"needed {amount(needed)} {unit}, within reach {amount(reached)}",
        f"short by {amount(missing)} {unit}, reaches {percent_down(shortfall.part)}",
    ]
