"""What a watch's log says over time: the moments of its entries, the commands, the cells of the groups and the alarms.

Orders have no moment of their own. They came between two telegrams that have one, and are placed between these, evenly
and in order; what comes after the last moment is placed behind it. A verdict stands at the entry that made its version.
Where no telegram has a moment, the entries are placed in their order.
"""

from dataclasses import dataclass
from fractions import Fraction

from .reading import Entry, Watch
from .refusal import Refusal

MOST_ALARMS = 256


@dataclass(frozen=True)
class Command:
    """At a moment in s: the version, the demand in kN, kN and kN·dm, and the part of it that is given."""

    at: float
    version: int
    demand: tuple[int, int, int]
    part: Fraction


@dataclass(frozen=True)
class Span:
    """From one time on until another, a group's lane: HOLDS, LOST, SUPERSEDED or PENDING, of this version."""

    start: float
    end: float
    state: str
    version: int


@dataclass(frozen=True)
class AlarmSpan:
    """An alarm: its number and cause, when it was raised, cleared and acknowledged; None for not at all."""

    number: int
    cause: str
    raised: float
    cleared: float | None
    acknowledged: float | None


@dataclass(frozen=True)
class Mark:
    """An entry of the operators, or a faulty line, at a time."""

    at: float
    text: str
    kind: str


@dataclass(frozen=True)
class History:
    has_moments: bool
    start: float
    end: float
    commands: list[Command]
    lanes: dict[str, list[Span]]
    alarms: list[AlarmSpan]
    marks: list[Mark]


def moment_of(entry: Entry) -> int | None:
    """The moment in ms of a position or a wind that was taken."""
    is_taken = entry.reply[0] in ("COMMANDED", "TAKEN")
    return int(entry.call[1]) if entry.call[0] in ("POS", "WND") and is_taken else None


def is_verdict(entry: Entry) -> bool:
    return entry.call[0] == "PUBLISH"


def takes_a_place(entry: Entry) -> bool:
    """Whether an entry without a moment has a time of its own: neither a verdict nor the end of the session has."""
    return entry.call[0] not in ("PUBLISH", "CLOSE")


def placed(entries: list[Entry], start: float, end: float) -> list[float]:
    """Times between two moments, evenly for the entries that take a place; the others stand at the one before."""
    step = (end - start) / (sum(map(takes_a_place, entries)) + 1)
    count, times = 0, []
    for entry in entries:
        count += takes_a_place(entry)
        times.append(start + step * count)
    return times


def times_of(watch: Watch) -> tuple[list[float], float, bool]:
    """The time of each entry in s and the end of the last, or their places where no entry has a moment."""
    entries = watch.entries
    moments = [moment_of(entry) for entry in entries]
    known = [it / 1000 for it in moments if it is not None]
    if not known:
        count = sum(map(takes_a_place, entries)) + 1
        return placed(list(entries), 0, count), count, False
    gaps = [b - a for a, b in zip(known, known[1:]) if b > a] or [1.0]
    times: list[float] = []
    last, waiting = known[0] - gaps[0], []
    for entry, moment in zip(entries, moments):
        if moment is None:
            waiting.append(entry)
        else:
            # A wind's moment may lie past the next position's, and then comes first.
            at = max(moment / 1000, last)
            times += [*placed(waiting, last, at), at]
            last, waiting = at, []
    end = last + gaps[-1]
    return times + placed(waiting, last, end), end, True


def history_of(watch: Watch) -> History:
    """What the log says. A log whose report tells other verdicts or alarms than its entries is refused."""
    times, end, has_moments = times_of(watch)
    commands = [
        Command(
            time,
            int(entry.reply[1]),
            tuple(map(int, entry.reply[2:5])),
            Fraction(int(entry.reply[5]), int(entry.reply[6])),
        )
        for time, entry in zip(times, watch.entries)
        if entry.reply[0] == "COMMANDED"
    ]
    marks = [mark for time, entry in zip(times, watch.entries) if (mark := mark_of(time, entry))]
    start = times[0] if times else 0.0
    return History(has_moments, start, end, commands, lanes_of(watch, times, end), alarms_of(watch, times), marks)


def mark_of(time: float, entry: Entry) -> Mark | None:
    word = entry.call[0]
    if entry.caller == "C" and word in ("DAMAGED", "REJECTED", "STRAY"):
        return Mark(time, " ".join(entry.call), "fault")
    if entry.caller != "O" or word == "BRD":
        return None
    text = " ".join(entry.call)
    if entry.reply[0] == "VERSION":
        return Mark(time, text, "switch")
    return Mark(time, text if entry.reply[0] == "TAKEN" else f"{text}: {entry.reply[0]}", "order")


def version_made(entry: Entry) -> int | None:
    """The version after a switch or a command."""
    return int(entry.reply[1]) if entry.reply[0] in ("VERSION", "COMMANDED") else None


class Lane:
    """How the cell of a group stands, from when on, and how it stood before."""

    def __init__(self, start: float):
        self.verdict, self.version = "PENDING", 0
        self.state, self.since = "PENDING", start
        self.spans: list[Span] = []

    def turn(self, time: float, latest: int) -> None:
        """Looks anew at the cell at a time: it is superseded where its version isn't the latest."""
        if time > self.since:
            self.spans.append(Span(self.since, time, self.state, self.version))
        is_current = self.verdict == "PENDING" or self.version == latest
        self.state, self.since = self.verdict if is_current else "SUPERSEDED", time

    def show(self, time: float, verdict: str, version: int, latest: int) -> None:
        self.turn(time, latest)
        self.verdict, self.version = verdict, version
        self.turn(time, latest)


def lanes_of(watch: Watch, times: list[float], end: float) -> dict[str, list[Span]]:
    """For each group of the report, how its cell stood."""
    lanes = {name: Lane(times[0] if times else 0.0) for name, _ in watch.groups}
    latest = 0
    for time, entry in zip(times, watch.entries):
        made = version_made(entry)
        if made is not None and made > latest:
            latest = made
            for lane in lanes.values():
                lane.turn(time, latest)
        if is_verdict(entry) and entry.reply[0] == "SHOWN":
            if entry.call[2] not in lanes:
                raise Refusal(entry.line, f"the report has no group {entry.call[2]}")
            lanes[entry.call[2]].show(time, entry.call[3], int(entry.call[1]), latest)
    first = watch.alarms[0].line - len(lanes) if watch.alarms else watch.end - len(lanes)
    for line, ((name, told), lane) in enumerate(zip(watch.groups, lanes.values()), first):
        lane.turn(end, latest)
        if lane.state != told:
            raise Refusal(line, f"by the log's entries {name} is {lane.state}")
    return {name: lane.spans for name, lane in lanes.items()}


def alarms_of(watch: Watch, times: list[float]) -> list[AlarmSpan]:
    """The alarms that the entries raise, and what became of them."""
    raised: list[list] = []
    active: dict[str, int] = {}

    def clear(cause: str, time: float) -> None:
        if cause in active:
            raised[active.pop(cause)][2] = time

    def put_on(cause: str, time: float) -> None:
        active[cause] = len(raised)
        raised.append([cause, time, None, None])

    latest = 0
    for time, entry in zip(times, watch.entries):
        made = version_made(entry)
        if made is not None and made > latest:
            latest = made
            for cause in [it for it in active if it != "SHORT"]:
                clear(cause, time)
        if entry.reply[0] == "COMMANDED":
            is_short = entry.reply[5] != entry.reply[6]
            if not is_short:
                clear("SHORT", time)
            elif "SHORT" not in active:
                put_on("SHORT", time)
        elif entry.call[0] == "PUBLISH" and entry.reply[0] == "SHOWN":
            clear(entry.call[2], time)
            if entry.call[3] == "LOST":
                put_on(entry.call[2], time)
        elif entry.call[0] == "ACK" and entry.reply[0] == "TAKEN":
            number = int(entry.call[1])
            if not 0 < number <= len(raised):
                raise Refusal(entry.line, f"no entry before raises alarm {number}")
            raised[number - 1][3] = time
    alarms = [AlarmSpan(number, *it) for number, it in enumerate(raised, 1)]
    compare(watch, alarms)
    return alarms


def compare(watch: Watch, alarms: list[AlarmSpan]) -> None:
    """The report has, of the last 256 alarms, those that are active or unacknowledged."""
    due = [it for it in alarms[-MOST_ALARMS:] if it.cleared is None or it.acknowledged is None]
    for told, it in zip(watch.alarms, due):
        if (told.number, told.cause, told.is_active, told.is_acknowledged) != (
            it.number,
            it.cause,
            it.cleared is None,
            it.acknowledged is not None,
        ):
            raise Refusal(told.line, f"by the log's entries alarm {it.number} of {it.cause} is due here")
    if len(due) != len(watch.alarms):
        line = watch.alarms[len(due)].line if len(due) < len(watch.alarms) else watch.end
        raise Refusal(line, f"by the log's entries the report has {len(due)} alarms")
