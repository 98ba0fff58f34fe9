"""What the devices of a scenario hear, as rows: docs/SCENARIOS.md, As its readers or devices hear it."""

from .scenario import Result, Run, result_of
from .simulated import HeardPulse

COLUMNS = "device,port,rise_us,width_us"


def row(name: str, pulse: HeardPulse) -> str:
    """The row of a pulse that a device heard."""
    return f"{name},{pulse.line},{pulse.rise},{pulse.end - pulse.rise}"


def rows_of(played: Run) -> Result:
    """The rows of a run of a plant of devices, and the refusal, if a line was refused."""
    rows = [COLUMNS, *(row(*heard) for heard in played.plant.heard)] if played.plant else []
    return result_of(played, rows + ([played.last] if played.error else []))
