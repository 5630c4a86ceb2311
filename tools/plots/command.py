"""The words of tools/plot, and what becomes of them."""

import argparse
import pathlib
import shlex
import sys

from . import table
from .findings import findings
from .history import history_of
from .plant import path_of, read_plant
from .reading import read_check, read_watch
from .refusal import PlantRefusal, Refusal, UsageFault

REFUSED, USAGE = 1, 2


def words() -> argparse.ArgumentParser:
    parser = argparse.ArgumentParser(
        prog="tools/plot", description="Draws a plant, and what dp writes. OUT ends with .svg, .png or .pdf."
    )
    kinds = parser.add_subparsers(dest="kind", metavar="KIND", required=True)
    plant = kinds.add_parser(
        "plant", help="the deck with its thrust regions, and the single-line diagram with the redundancy groups"
    )
    plant.add_argument("plant", metavar="PLANT", help="a plant file, or demo; - for standard input")
    check = kinds.add_parser("check", help="the text of dp check: thrusts as arrows, or where a loss falls short")
    check.add_argument(
        "--plant", metavar="PLANT", required=True, help="the plant that was checked, which the text doesn't name"
    )
    check.add_argument(
        "--table", action="store_true", help="an aligned table in kN in place of a picture, to OUT or standard output"
    )
    watch = kinds.add_parser(
        "watch", help="the text of dp replay: the demand, the losses, the alarms and the orders over time"
    )
    capability = kinds.add_parser(
        "capability", help="the text of dp capability: a polar plot of the greatest wind that is held whatever is lost"
    )
    capability.add_argument("--plant", metavar="PLANT", help="the plant, for its name, which the text doesn't say")
    for kind in (check, watch, capability):
        kind.add_argument(
            "file",
            metavar="FILE",
            nargs="?",
            default="-",
            help="what dp wrote; standard input where it is missing or -",
        )
    report = kinds.add_parser("report", help="runs dp check and dp capability, and makes one page of HTML")
    report.add_argument("plant", metavar="PLANT", help="a plant file, or demo")
    for name, help_of in (("X", "kN ahead"), ("Y", "kN to starboard"), ("N", "kN·dm that turn the bow to starboard")):
        report.add_argument(name, help=help_of)
    for kind in (plant, check, watch, capability, report):
        kind.add_argument("-o", metavar="OUT", dest="out", required=kind is not check, help="the file that is written")
    return parser


def text_of(word: str) -> str:
    """The text of a file, or of standard input."""
    data = sys.stdin.buffer.read() if word == "-" else pathlib.Path(word).read_bytes()
    try:
        return data.decode("ascii")
    except UnicodeDecodeError as fault:
        raise Refusal(data.count(b"\n", 0, fault.start) + 1, "a byte that dp never writes") from None


def draw_plant(given: argparse.Namespace) -> None:
    plant = read_plant("standard input", sys.stdin.buffer.read()) if given.plant == "-" else read_plant(given.plant)
    from . import drawing, vessel

    drawing.save(vessel.picture(plant), given.out)


def draw_check(given: argparse.Namespace) -> None:
    if not (given.out or given.table):
        raise UsageFault("a picture needs -o OUT")
    plant, check = read_plant(given.plant), read_check(text_of(given.file))
    found = findings(plant, check)
    if given.table:
        text = table.text(plant, check, found)
        if given.out:
            pathlib.Path(given.out).write_text(text)
        else:
            sys.stdout.write(text)
    else:
        from . import check as check_picture, drawing

        drawing.save(check_picture.picture(plant, check, found), given.out)


def draw_watch(given: argparse.Namespace) -> None:
    seen = read_watch(text_of(given.file))
    history = history_of(seen)
    from . import drawing, watch

    drawing.save(watch.picture(seen.name, history), given.out)


def draw_capability(given: argparse.Namespace) -> None:
    from . import capability, drawing

    name = read_plant(given.plant).name if given.plant else None
    drawing.save(capability.picture(capability.read_capability(text_of(given.file)), name), given.out)


def make_report(given: argparse.Namespace) -> None:
    demand = [given.X, given.Y, given.N]
    plant, path = read_plant(given.plant), path_of(given.plant)
    from . import report

    word, name = ("demo", "demo") if given.plant == "demo" else (str(path.resolve()), path.name)
    texts = [report.written(command, word, demand) for command in ("check", "capability")]
    pathlib.Path(given.out).write_text(report.page(plant, *texts, shlex.join(["--", name, *demand])), encoding="utf-8")


KINDS = {
    "plant": draw_plant,
    "check": draw_check,
    "watch": draw_watch,
    "capability": draw_capability,
    "report": make_report,
}


def main(arguments: list[str] | None = None) -> int:
    given = words().parse_args(arguments)
    try:
        KINDS[given.kind](given)
    except (Refusal, PlantRefusal, OSError) as fault:
        print(f"tools/plot: {fault}", file=sys.stderr)
        return REFUSED
    except UsageFault as fault:
        print(f"tools/plot: {fault}", file=sys.stderr)
        return USAGE
    return 0
