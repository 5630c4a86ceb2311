"""What says that a text isn't one of dp's."""


class Refusal(Exception):
    """A text that is none of dp's, with the line at fault and why."""

    def __init__(self, line: int, why: str):
        super().__init__(f"line {line}: {why}")
        self.line, self.why = line, why


class PlantRefusal(Exception):
    """A plant file that can't be drawn, with the place at fault and why."""


class UsageFault(Exception):
    """Words that aren't those of the command."""
