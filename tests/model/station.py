"""A plant of devices, played: docs/SCENARIOS.md, A plant of devices; docs/OUTPUT.md, The log of devices."""

from collections.abc import Iterator

from .faults import refuse_if
from .frames import told as word_of
from .generator import GeneratorFault, Kind, sent
from .meaning import Event
from .reader import said_of
from .simulated import SECOND, HeardPulse, Signal, Simulated, ToldSecond
from .station_lines import StationPlan
from .times import Claim, Mark, is_true_table, second_at, text_of_second, truth_at
from .wires import KeptCable, Pulse

NEEDS_NO_TABLE = 57  # the longest holdover that needs no leap table


def told_line(name: str, second: ToldSecond) -> str:
    """The line of a told second (docs/OUTPUT.md, The log of devices)."""
    report = second.beat.report
    bound = "-" if report.second is None else second.beat.bound
    return f"{second.edge} {name} {said_of(report)} {second.behind:+d} {bound}"


class Station:
    """Generators, devices, the present time, and what was sent in the seconds that have begun."""

    def __init__(self, plan: StationPlan, entries: str):
        self.plan, self.now, self.shows_all = plan, 0, "all" in entries
        self.seconds: list[list[Signal]] = []
        self.faults: list[GeneratorFault | None] = [None] * len(plan.generators)
        self.devices = {name: Simulated(setup, plan.rules) for name, setup in plan.devices.items()}
        self.told_seconds: list[tuple[str, ToldSecond]] = []
        self.heard: list[tuple[str, HeardPulse]] = []
        self.broken = self.broken_at_start()

    def keep_pulses(self, name: str) -> list[list[Pulse]]:
        """The pulses that rise on each line of a device, which is asked for before any event: lists that grow."""
        cables = [KeptCable(late) for late in self.plan.devices[name].late]
        self.devices[name].cables = cables
        return [cable.rose for cable in cables]

    # ---- the audit

    def broken_at_start(self) -> str | None:
        """What is wrong with the setup of a device (docs/OUTPUT.md, The log of devices, the last line)."""
        devices, timeline = self.plan.devices.items(), self.plan.timeline
        for name, device in devices:
            if device.rules.holdover > NEEDS_NO_TABLE and not is_true_table(device.table, timeline):
                return f"table of device {name}"
        for name, device in devices:
            if abs(device.gain) > device.drift:
                return f"drift of device {name}"
        return None

    def look(self, name: str) -> None:
        """If the premises of a device no longer hold, they broke in the present second."""
        if self.broken is None and not self.devices[name].premises.are_kept:
            self.broken = f"edge {self.now // SECOND} device {name}"

    def last_line(self) -> str:
        return f"premises broken: {self.broken}" if self.broken else "premises kept"

    # ---- true time

    def signal(self, g: int, edge: int) -> Signal:
        """What a generator sends from an edge on, and what a true line has: the same, unless that claims what is
        untrue."""
        plan = self.plan
        frame, plain = (
            sent(plan.generators[g], fault, plan.timeline, plan.rules, edge) for fault in (self.faults[g], None)
        )
        word = word_of(plan.rules, frame)
        is_untrue = isinstance(word, Claim) and word != truth_at(plan.timeline, edge)
        return Signal(frame, plain if is_untrue or not frame else frame)

    def begin_second(self) -> None:
        """The next second begins, if there is one."""
        edge = len(self.seconds)
        refuse_if(22, second_at(self.plan.timeline, edge) is None)
        self.seconds.append([self.signal(g, edge) for g in range(len(self.faults))])

    def pass_time(self, us: int) -> Iterator[str]:
        """So much time passes, cut at true edges: in each part device after device."""
        end = self.now + us
        while self.now < end:
            if self.now == SECOND * len(self.seconds):
                self.begin_second()
            stop = min(end, SECOND * len(self.seconds))
            for name, device in self.devices.items():
                yield from self.told(name, device.pass_to(stop, self.seconds))
                self.heard += [(name, pulse) for pulse in device.heard]
                device.heard.clear()
            self.now = stop

    def told(self, name: str, seconds: Iterator[ToldSecond]) -> Iterator[str]:
        """The lines of what a device tells, which is then looked at."""
        for second in seconds:
            self.told_seconds.append((name, second))
            if self.shows_all or second.beat.report.second is not None:
                yield told_line(name, second)
        self.look(name)

    # ---- events

    def fault(self, event: Event) -> None:
        """A generator has a fault from the next frame on."""
        leap = Mark(event["leap"]) if "leap" in event else None
        value = event.get("by", event.get("q", leap))
        self.faults[event["g"]] = GeneratorFault(Kind(event["kind"]), value, len(self.seconds))

    def stamp(self, name: str, ago: int) -> str:
        """A device is asked for a stamp (docs/OUTPUT.md, The log of devices)."""
        refuse_if(37, ago > self.now)
        time = self.now - ago
        stamp = self.devices[name].stamp(self.now, time)
        self.look(name)
        said = "- - -" if stamp is None else f"{text_of_second(stamp.second)} {stamp.offset} {stamp.bound}"
        return f"@{time // SECOND}.{time % SECOND:06} {name} {said}"

    def on_line(self, event: Event) -> None:
        """What is done to a line."""
        cable = self.devices[event["r"]].cables[event["g"]]
        match event["do"]:
            case "late":
                cable.late = event["us"]
            case "pulse":
                cable.add(self.now, event["width"])
            case _:
                cable.is_out = event["do"] == "pull"

    def lines_of(self, event: Event) -> Iterator[str]:
        """The lines of an event, or its refusal, 20, 22 or 37 (docs/SCENARIOS.md, A plant of devices)."""
        name = event.get("r")
        refuse_if(20, event.get("g", 0) >= len(self.faults))
        match event["do"]:
            case "pass":
                yield from self.pass_time(event["us"])
            case "seconds":
                yield from self.pass_time(event["n"] * SECOND)
            case "fault":
                self.fault(event)
            case "repair":
                self.faults[event["g"]] = None
            case "tick":
                yield from self.told(name, self.devices[name].tick(self.now))
            case "restart":
                self.devices[name].begin(self.now)
            case "stamp":
                yield self.stamp(name, event["ago"])
            case _:
                self.on_line(event)
