"""Reads the texts that dp writes: a check, and a replay (frames, log and report).

A text that isn't one is refused with the line at fault. docs/FORMATS.md says how they are written."""

import functools
import re
from collections.abc import Callable, Iterator
from dataclasses import dataclass
from fractions import Fraction
from typing import NoReturn

from .refusal import Refusal

# No number of dp's has more than the 39 digits of 128 bits.
NUMBER = r"(?:0|-?[1-9][0-9]{0,38})"
NAME = r"[A-Za-z0-9_-]{1,12}"
NUMBERS = rf"(?:,{NUMBER})*"
HOLDS_TEXT = rf"HOLDS,{NUMBER},{NUMBER}{NUMBERS}"
LOST_TEXT = rf"LOST,{NUMBER}{NUMBERS}"
OUTCOME_TEXT = f"(?:{HOLDS_TEXT}|{LOST_TEXT})"


@dataclass(frozen=True)
class Holds:
    """Thrusts over q that meet the demand, in this choice of pieces: x kN ahead and y kN to starboard."""

    choice: int
    thrusts: tuple[tuple[Fraction, Fraction], ...]
    line: int


@dataclass(frozen=True)
class Lost:
    """A cut for each choice of pieces."""

    cuts: tuple[tuple[int, int, int], ...]
    line: int


Outcome = Holds | Lost


@dataclass(frozen=True)
class Check:
    """The text of `dp check`: the demand in kN, kN and kN·dm, the outcomes, and the part of the demand that can be
    given with nothing lost."""

    demand: tuple[int, int, int]
    intact: Outcome
    groups: tuple[tuple[str, Outcome], ...]
    part: Fraction


@dataclass(frozen=True)
class Entry:
    """A line of a log: who asked, the fields of the call and of the reply, and the line's number."""

    caller: str
    call: tuple[str, ...]
    reply: tuple[str, ...]
    line: int


@dataclass(frozen=True)
class Alarm:
    """A line ALARM of a report."""

    number: int
    # the group, or SHORT
    cause: str
    is_active: bool
    is_acknowledged: bool
    line: int


@dataclass(frozen=True)
class Watch:
    """The text of `dp replay` but for its frames."""

    name: str
    entries: tuple[Entry, ...]
    latest: int
    groups: tuple[tuple[str, str], ...]
    alarms: tuple[Alarm, ...]
    # the line END
    end: int


class Lines:
    """The lines of a text, with the place in it."""

    def __init__(self, text: str):
        self.lines = text.split("\n")
        self.at = 0
        if self.lines[-1]:
            self.at = len(self.lines) - 1
            self.refuse("the text ends within this line")
        self.lines.pop()

    def refuse(self, why: str) -> NoReturn:
        raise Refusal(self.at + 1, why)

    def peek(self) -> str | None:
        return self.lines[self.at] if self.at < len(self.lines) else None

    def take(self, pattern: str, what: str) -> list[str]:
        """The fields of the next line, which is of this form."""
        line = self.peek()
        if line is None:
            self.refuse(f"the text ends where {what} is due")
        if not matcher(pattern)(line):
            self.refuse(f"this isn't {what}")
        self.at += 1
        return line.split(",")

    def take_while(self, head: str, pattern: str, what: str) -> Iterator[list[str]]:
        while (line := self.peek()) is not None and line.startswith(head):
            yield self.take(pattern, what)

    def end(self) -> None:
        if self.peek() is not None:
            self.refuse("the text goes on after its END")


@functools.cache
def matcher(pattern: str) -> Callable:
    return re.compile(pattern).fullmatch


def numbers(fields: list[str]) -> tuple[int, ...]:
    return tuple(map(int, fields))


def pairs(values: tuple[int, ...], bottom: int) -> tuple[tuple[Fraction, Fraction], ...]:
    return tuple((Fraction(x, bottom), Fraction(y, bottom)) for x, y in zip(values[::2], values[1::2]))


def outcome_of(fields: list[str], line: int) -> Outcome:
    """The outcome of the fields from HOLDS or LOST on."""
    verdict, *rest = fields
    values = numbers(rest)
    if verdict == "HOLDS":
        if values[1] < 1:
            raise Refusal(line, "the denominator is less than 1")
        if len(values) % 2:
            raise Refusal(line, "a thrust has no second number")
        return Holds(values[0], pairs(values[2:], values[1]), line)
    if len(values) != 1 + 3 * values[0] or not values[0]:
        raise Refusal(line, "the count of cuts isn't that of the numbers")
    return Lost(tuple(zip(values[1::3], values[2::3], values[3::3])), line)


def fraction_of(top: str, bottom: str, line: int) -> Fraction:
    if int(bottom) < 1 or int(top) < 0:
        raise Refusal(line, "this is no part of a demand")
    return Fraction(int(top), int(bottom))


def read_check(text: str) -> Check:
    lines = Lines(text)
    demand = numbers(lines.take(rf"CHECK(?:,{NUMBER}){{3}}", "the line CHECK of a check")[1:])
    intact = outcome_of(lines.take(f"INTACT,{OUTCOME_TEXT}", "the line INTACT with an outcome")[1:], lines.at)
    groups = [
        (fields[1], outcome_of(fields[2:], lines.at))
        for fields in lines.take_while("GROUP,", f"GROUP,{NAME},{OUTCOME_TEXT}", "a line GROUP with an outcome")
    ]
    form = rf"ALLOCATION(?:,{NUMBER}){{4}}{NUMBERS}"
    fields = lines.take(form, "a line GROUP or the line ALLOCATION")
    part = fraction_of(fields[1], fields[2], lines.at)
    for it in (intact, *(outcome for _, outcome in groups)):
        if isinstance(it, Holds) and 2 * len(it.thrusts) != len(fields) - 5:
            raise Refusal(it.line, "other thrusters than in the line ALLOCATION")
    lines.take("END", "the line END")
    lines.end()
    return Check(demand, intact, tuple(groups), part)


CALLS = {
    "POS": rf"(?:,{NUMBER}){{4}}",
    "WND": rf"(?:,{NUMBER}){{3}}",
    "SET": rf"(?:,{NUMBER}){{3}}",
    "THR": rf",{NAME},(?:IN|OUT)",
    "GEN": rf",{NAME},(?:RUN|STOP)",
    "TIE": rf",{NAME},(?:CLOSE|OPEN)",
    "MOD": r",(?:AUTO|MANUAL)",
    "MAN": rf"(?:,{NUMBER}){{3}}",
    "ACK": rf",{NUMBER}",
    "BRD": "",
    "BAR": rf",{NAME},{NUMBER},(?:BAR|FREE)",
    "DAMAGED": ",[1-4]",
    "REJECTED": ",[1-5]",
    "STRAY": "",
    "PUBLISH": rf",{NUMBER},{NAME},{OUTCOME_TEXT}",
    "CLOSE": "",
}
SWITCHED = rf"VERSION,{NUMBER}|SAME|UNKNOWN-NAME"
# What each call may be answered.
REPLIES = {
    "POS": rf"COMMANDED(?:,{NUMBER}){{8}}{NUMBERS}|LATE,{NUMBER}",
    "WND": rf"TAKEN|LATE,{NUMBER}",
    "SET": "TAKEN|WRONG-MODE",
    "THR": SWITCHED,
    "GEN": SWITCHED,
    "TIE": SWITCHED,
    "MOD": "TAKEN|SAME",
    "MAN": "TAKEN|WRONG-MODE",
    "ACK": "TAKEN|NO-SUCH-ALARM",
    "BRD": rf"CELLS,{NUMBER}(?:,PENDING|,{NUMBER}:(?:HOLDS|LOST):(?:CURRENT|SUPERSEDED))*",
    "BAR": rf"{SWITCHED}|NO-PIECE",
    "DAMAGED": "NOTED",
    "REJECTED": "NOTED",
    "STRAY": "NOTED",
    "PUBLISH": rf"SHOWN|ALREADY|(?:SUPERSEDED|UNKNOWN),{NUMBER}"
    rf"|REFUSED,(?:DENOMINATOR|CHOICE|THRUST-COUNT|SUM|CUT-COUNT|(?:THRUSTER|CUT),{NUMBER})",
    "CLOSE": "TAKEN",
}
CALLER = r"(?:[SCO]|W[1-9][0-9]*)"


def entry_of(line: str, number: int) -> Entry:
    front, _, reply = line.partition(" = ")
    caller, _, call = front.partition(" ")
    word = call.partition(",")[0]
    if word not in CALLS or not matcher(CALLER)(caller) or not matcher(word + CALLS[word])(call):
        raise Refusal(number, "this is no entry of a log")
    if not matcher(REPLIES[word])(reply):
        raise Refusal(number, f"this is no reply to {word}")
    entry = Entry(caller, tuple(call.split(",")), tuple(reply.split(",")), number)
    if word == "PUBLISH":
        outcome_of(list(entry.call[3:]), number)
    if entry.reply[0] == "COMMANDED":
        fraction_of(entry.reply[5], entry.reply[6], number)
    return entry


def check_frames(lines: Lines) -> None:
    """Goes past the frames of commands."""
    while (line := lines.peek()) is not None and line.startswith("$"):
        if not matcher(rf"\$(?:CMD(?:,{NUMBER}){{7}}|THC,{NAME}(?:,{NUMBER}){{3}})\*[0-9A-F]{{2}}")(line):
            lines.refuse("this is no frame of a command")
        body, _, digits = line[1:].partition("*")
        if functools.reduce(int.__xor__, body.encode()) != int(digits, 16):
            lines.refuse("the frame's checksum is another")
        lines.at += 1


def read_watch(text: str) -> Watch:
    lines = Lines(text)
    check_frames(lines)
    name = lines.take(f"LOG,1,{NAME}", "a frame of a command or the line LOG of a log")[2]
    entries = []
    while (line := lines.peek()) is not None and not line.startswith("REPORT,"):
        entries.append(entry_of(line, lines.at + 1))
        lines.at += 1
    latest = int(lines.take(rf"REPORT(?:,{NUMBER}){{2}}", "an entry of the log or the line REPORT")[1])
    form = rf"GROUP,{NAME},(?:HOLDS|LOST|SUPERSEDED|PENDING)"
    groups = tuple((fields[1], fields[2]) for fields in lines.take_while("GROUP,", form, "a line GROUP of a report"))
    form = rf"ALARM,{NUMBER},(?:CONSEQUENCE,{NAME}|SHORT),(?:ACTIVE|CLEARED),(?:ACKED|UNACKED)"
    alarms = tuple(
        Alarm(int(fields[1]), fields[-3], fields[-2] == "ACTIVE", fields[-1] == "ACKED", lines.at)
        for fields in lines.take_while("ALARM,", form, "a line ALARM of a report")
    )
    lines.take("END", "a line GROUP, a line ALARM or the line END")
    lines.end()
    return Watch(name, tuple(entries), latest, groups, alarms, lines.at)
