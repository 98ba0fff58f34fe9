"""The numbers of faults and refusals: docs/FAULTS.md, the tables of frames and of scenarios."""

from dataclasses import dataclass

NAMES = """Short Long Pulse Marker Digit Range NoSuchDay OutOfYears Second60 DeletedSecond
    BadStart LeapNotMonthEnd LeapTwice OutOfYears Offset Changes Parity Sbs NoSuchReader
    NoSuchGenerator FutureReplay EndOfYears TooLong Json Shape Value Version Names NoPlant
    TooManyLines TableEnd TableLong TableDay TableTwice Drift Early BeforeStart""".split()  # 1 to 37


@dataclass(frozen=True)
class Fault:
    """A fault of a frame, with its place if it has one (docs/FAULTS.md, Faults of a frame)."""

    number: int
    place: int | str | None = None


class Refused(Exception):
    """A refusal, as `24 Json` (docs/FAULTS.md, Refusals of a scenario)."""

    def __init__(self, number: int):
        super().__init__(f"{number} {NAMES[number - 1]}")
        self.number = number


def refuse_if(number: int, is_wrong: bool) -> None:
    """Refuses by a number of docs/FAULTS.md, Refusals of a scenario."""
    if is_wrong:
        raise Refused(number)
