"""One page for a surveyor: the vessel, its losses with their verdicts and reserves, the wind that they leave, and the
thrusts of the worst loss.

It needs neither a network nor a script to be read, and prints on A4."""

import base64
import html
import io
import re
import subprocess
from collections.abc import Iterable

from matplotlib.figure import Figure

from . import capability as wind, vessel
from .capability import Capability, WindLimit, letter_of, reserve_text, speed_text
from .check import ROUNDED, decks
from .drawing import LETTERS
from .findings import Finding, findings, worst
from .plant import ROOT, Plant
from .reading import Check, read_check
from .refusal import Refusal
from .table import HEAD, TO_THE_LEFT, rows_of
from .words import demand_text, part_text, percent, shortfall_lines

STYLE = """
@page { size: A4; margin: 16mm 15mm; }
body { font: 10.5pt/1.4 "DejaVu Sans", Verdana, Arial, sans-serif; color: #222; max-width: 180mm; margin: 8mm auto; }
h1 { font-size: 16pt; margin: 0 0 2mm; }
h2 { font-size: 12pt; margin: 7mm 0 2mm; break-after: avoid; }
table { border-collapse: collapse; width: 100%; font-size: 9pt; }
tr { break-inside: avoid; }
th, td { border: 0.3mm solid #999; padding: 1mm 2mm; text-align: left; vertical-align: top; }
th { background: #eee; }
.number { text-align: right; white-space: nowrap; }
.name, code { white-space: nowrap; }
.lost { font-weight: bold; background: #222; color: #fff; }
.sum { border: 0.5mm solid #222; padding: 2mm 3mm; }
figure { margin: 3mm 0; break-inside: avoid; text-align: center; }
figure img { max-width: 100%; max-height: 232mm; }
figcaption { font-size: 9pt; text-align: left; }
pre { font-size: 7.5pt; white-space: pre-wrap; overflow-wrap: anywhere; background: #f6f6f6; padding: 2mm; }
@media print {
  body { margin: 0; }
  .page { break-before: page; margin-top: 0; }
  th, .lost { print-color-adjust: exact; -webkit-print-color-adjust: exact; }
}
"""


def written(command: str, word: str, demand: list[str]) -> str:
    """The text of `dp check` or `dp capability`. What it says of a fault is passed on."""
    run = subprocess.run([ROOT / "dp", command, "--", word, *demand], capture_output=True, text=True)
    if run.returncode not in (0, 1):
        raise Refusal(1, f"dp {command} wrote no whole text: {run.stderr.strip()}")
    return run.stdout


def page(plant: Plant, check_text: str, capability_text: str, words: str) -> str:
    """The page of the texts of a check and a capability; the words are those of the plant and the demand."""
    check, capability = read_check(check_text), wind.read_capability(capability_text)
    found = findings(plant, check)
    if capability.demand != check.demand:
        raise Refusal(1, "the capability's demand is another than the check's")
    if [name for name, _ in capability.reserves] != [it.loss for it in found]:
        raise Refusal(2, "the capability's losses are others than the check's")
    last = worst_of(found, capability)
    demand = html.escape(demand_text(check.demand))
    parts = [
        f"<h1>{plant.name}: consequence analysis and DP capability</h1>",
        f"<p>Demand on the thrusters: <b>{demand}</b>.</p>",
        f'<p class="sum">{summary(check, found)} {wind_summary(capability)}</p>',
        "<h2>The losses</h2>",
        losses(plant, found, capability),
        f"<p>{OF_LOSSES}</p>",
        '<h2 class="page">The wind</h2>',
        shown(wind.picture(capability, plant.name), f"The capability plot of {plant.name}", OF_WIND),
        winds(capability),
        f'<h2 class="page">The worst loss: {last.loss}</h2>',
        f"<p>{why_worst(last, capability)}</p>",
        shown(two_decks(plant, found, last), f"The thrusts with nothing lost, and {last.loss}", of_thrusts(last)),
        thrusts(plant, [found[0], last]),
        '<h2 class="page">The vessel</h2>',
        shown(vessel.picture(plant), f"The vessel {plant.name} with its thrust regions and its power", OF_VESSEL),
        '<h2 class="page">The text of the check</h2>',
        f"<p>{OF_TEXT.format(words=html.escape(words))}</p>",
        f"<pre>{html.escape(check_text)}</pre>",
    ]
    # A number keeps its threes of digits, and its unit, on one line.
    body = re.sub(r"(?<=\d) (?=\d{3}\b|%|m/s)|(?<=×) ", "&#8239;", "\n".join(parts))
    return HEADS.format(title=f"{plant.name}: consequence analysis of {demand}", style=STYLE, body=body)


def worst_of(found: list[Finding], capability: Capability) -> Finding:
    """The loss with the least reserve. Where none has one, or that one holds and another, whose reserve is no number,
    doesn't, it is the worst of the check."""
    least = next((it for it in found if it.loss == capability.worst), None)
    if least is None or least.holds() and not all(it.holds() for it in found[1:]):
        return worst(found)
    return least


HEADS = """<!DOCTYPE html>
<html lang="en">
<head>
<meta charset="utf-8">
<meta name="viewport" content="width=device-width">
<title>{title}</title>
<style>{style}</style>
</head>
<body>
{body}
</body>
</html>
"""
OF_LOSSES = (
    "HOLDS: the thrusters that remain after the loss can give the whole demand. LOST: they can't, in whatever way they "
    "are used. A section takes with it all that hangs on it. The reserve is how many times the demand can be given, "
    "rounded down: below 1 it can't be met; “any” where nothing is demanded, and “frozen” where a thruster stays at a "
    "frozen thrust. The part of its reach is how much of what a thruster could give in that direction its thrust takes, "
    "rounded up."
)
OF_WIND = (
    "The bow is up, and angles go clockwise. Each dot is the greatest speed of a wind from there at which, and at each "
    "lower one, the demand together with the wind's force is held with nothing lost and after each loss. The letter "
    "outside names the loss that can't be held at the next speed, 0.1 m/s above. Wind is all that is added: waves and "
    "current are in it only as far as the demand has them."
)
OF_VESSEL = (
    "On the deck the levers are to scale, and round each stands what its thruster can give; each region is enlarged "
    "beside it. Below stand the sections of the switchboard with their generators (G) and thrusters (M), and for each "
    "redundancy group a lane that marks what it takes away. The outline of the hull is a sketch."
)
OF_TEXT = (
    "This page was drawn from the plant file and from what <code>./dp check {words}</code> and <code>./dp capability "
    "{words}</code> wrote. The text below is that of the check, and exact: thrusts are fractions of kN, and a loss that "
    "can't be held has a cut for each choice of pieces. That of the capability has the same for each angle, at the "
    "speed that is held and at the next. Their forms stand in docs/FORMATS.md of dp. No certification is claimed."
)


def summary(check: Check, found: list[Finding]) -> str:
    lost = [it.loss for it in found[1:] if not it.holds()]
    intact = f"{part_text(check.part)}."
    if not lost:
        return f"{intact} After the loss of any one redundancy group the rest <b>can still give all of it</b>."
    those = "this loss" if len(lost) == 1 else "these losses"
    return f"{intact} After {those} the thrusters that remain <b>can't give all of it: {', '.join(lost)}</b>."


def wind_summary(capability: Capability) -> str:
    least = min(capability.limits, key=lambda it: -1 if it.speed is None else it.speed)
    if least.speed is None:
        return "So no wind can be added to it."
    if least.loss is None:
        return "Beside it a wind of up to <b>100 m/s</b> is held from each angle, whatever is lost."
    lost = "with nothing lost" if least.loss == wind.INTACT else f"after the loss of {least.loss}"
    return (
        f"Beside it a wind of <b>{speed_text(least.speed)} m/s</b> is held from each angle, whatever is lost; the next "
        f"one, from {least.angle // 100}°, isn't {lost}."
    )


def losses(plant: Plant, found: list[Finding], capability: Capability) -> str:
    """The table of the losses, with their verdicts, their reserves and what they leave."""
    heads = ("", "loss", "takes away", "verdict", "reserve", "what it leaves")
    letters = ["", *LETTERS]
    takes = ["nothing", *(", ".join(group.members) for group in plant.groups)]
    reserves = [reserve_text(reserve) for _, reserve in capability.reserves]
    rows = [
        row([(letter, ""), (it.loss, "name"), (away, ""), verdict_cell(it), (reserve, "number"), (leaves(plant, it), "")])
        for letter, away, it, reserve in zip(letters, takes, found, reserves)
    ]
    return table(heads, rows)


def winds(capability: Capability) -> str:
    """The table of the wind limits: three of them in a row."""
    third = len(capability.limits) // 3
    columns = zip(*(capability.limits[k * third : (k + 1) * third] for k in range(3)))
    rows = [row([cell for it in limits for cell in wind_cells(capability, it)]) for limits in columns]
    return table(("wind from", "m/s", "next lost") * 3, rows)


def wind_cells(capability: Capability, limit: WindLimit) -> list[tuple[str, str]]:
    """The angle, the speed, and the letter and name of the loss that gives way next."""
    if limit.loss is None:
        told = "none"
    elif limit.loss == wind.INTACT:
        told = wind.INTACT
    else:
        told = f"{letter_of(capability, limit.loss)} {limit.loss}"
    beyond = ": BEYOND" if limit.is_beyond else ""
    return [(f"{limit.angle // 100}°", "number"), (speed_text(limit.speed), "number"), (told + beyond, "name")]


def verdict_cell(found: Finding) -> tuple[str, str]:
    return ("HOLDS", "") if found.holds() else ("LOST", "lost")


def leaves(plant: Plant, found: Finding) -> str:
    if not found.holds():
        along, place, *rest = shortfall_lines(found.shortfall)
        return "; ".join([f"{along} {place}", *rest])
    most = found.most_used()
    if not most:
        return "no thrust is needed"
    names = [it.name for use, it in zip(found.uses, plant.thrusters) if use.part == most]
    return f"thrusts that give it take at most {percent(most)} of a thruster's reach ({', '.join(names)})"


def why_worst(found: Finding, capability: Capability) -> str:
    if found.loss == capability.worst:
        reserve = reserve_text(dict(capability.reserves)[found.loss])
        held = "It is held all the same" if found.holds() else "It can't be held"
        return f"Of all losses this one leaves the least reserve: {reserve} the demand. {held}."
    if found.holds():
        return "Every loss is held. In this one the thrusts below take more of a thruster's reach than in any other."
    return "Of the losses that can't be held this one reaches the least part of what is needed where it falls short."


def of_thrusts(found: Finding) -> str:
    if found.holds():
        return f"Thrusts that give the demand, with nothing lost and after the loss of {found.loss}. {ROUNDED}"
    return (
        f"Left the thrusts that give the demand with nothing lost. Right the loss of {found.loss}: crosses are thrusters "
        f"that give nothing, and the heavy arrow is the way in which those that remain fall short. {ROUNDED}"
    )


def two_decks(plant: Plant, found: list[Finding], last: Finding) -> Figure:
    return decks(plant, [found[0], last], 2, [-1, found.index(last) - 1], (0.1, 0.1))


def thrusts(plant: Plant, found: list[Finding]) -> str:
    """The table of the thrusts of those losses that hold."""
    classes = ["" if k < TO_THE_LEFT else "number" for k in range(len(HEAD))]
    rows = [row(zip(cells, classes)) for it in found if it.holds() for cells in rows_of(plant, it)]
    return table(HEAD, rows) if rows else ""


def table(heads: Iterable[str], rows: list[str]) -> str:
    return f"<table><tr>{''.join(f'<th>{it}</th>' for it in heads)}</tr>{''.join(rows)}</table>"


def row(cells: Iterable[tuple[str, str]]) -> str:
    """A row of texts with their classes."""
    return "<tr>" + "".join(f'<td class="{kind}">{html.escape(text)}</td>' for text, kind in cells) + "</tr>"


def shown(figure: Figure, alternative: str, caption: str) -> str:
    text = io.BytesIO()
    figure.savefig(text, format="svg", metadata={"Date": None})
    source = "data:image/svg+xml;base64," + base64.b64encode(text.getvalue()).decode()
    image = f'<img alt="{html.escape(alternative)}" src="{source}">'
    return f"<figure>{image}<figcaption>{html.escape(caption)}</figcaption></figure>"
