"""The debugger's state: the live events with their tickets, and the state to which they run."""

from __future__ import annotations

from dataclasses import dataclass

from .elaboration import System
from .events import Event, State, after, depends_directly, opening_state, possible_events
from .faults import Number, Refused
from .places import Address
from .syntax import Variable

MOST_LIVE = 65_536


@dataclass(frozen=True)
class Live:
    ticket: int
    event: Event


class Machine:
    """Each call answers or raises the refusal, and then nothing has changed."""

    def __init__(self, system: System) -> None:
        self.system = system
        self.live: list[Live] = []
        self.next_ticket = 1
        self.run: State | None = opening_state(system)
        self.listed: tuple[State, list[Event]] | None = None

    @property
    def state(self) -> State:
        """The state to which the live events run. Behind what was taken back it is made anew once it is asked for."""
        if self.run is None:
            self.run = self.replayed()
        return self.run

    def ready(self) -> list[Event]:
        """What is possible, listed once for each state."""
        state = self.state
        if self.listed is None or self.listed[0] is not state:
            self.listed = (state, possible_events(state))
        return self.listed[1]

    def step(self, acting: Address, arm: int) -> Live:
        for event in self.ready():
            if (event.acting, event.arm) == (acting, arm):
                if len(self.live) >= MOST_LIVE:
                    raise Refused(Number.HISTORY_FULL)
                self.run = after(self.state, event)
                self.live.append(Live(self.next_ticket, event))
                self.next_ticket += 1
                return self.live[-1]
        raise Refused(Number.NOT_READY)

    def entry(self, ticket: int) -> Live:
        for entry in self.live:
            if entry.ticket == ticket:
                return entry
        raise Refused(Number.NO_SUCH_EVENT)

    def closure(self, ticket: int) -> list[Live]:
        """The event with the ticket and all live events that depend on it."""
        inside = [self.entry(ticket)]
        for entry in self.live:
            if entry.ticket > ticket and any(depends_directly(one.event, entry.event) for one in inside):
                inside.append(entry)
        return inside

    def undo(self, ticket: int) -> Live:
        entry, *dependents = self.closure(ticket)
        if dependents:
            raise Refused(Number.NEEDED_BY, dependents[0].ticket)
        self.remove([entry])
        return entry

    def roll(self, ticket: int) -> int:
        """How many events went."""
        gone = self.closure(ticket)
        self.remove(gone)
        return len(gone)

    def last_writer(self, variable: Variable) -> int:
        """The ticket of the last live event that wrote the variable."""
        for entry in reversed(self.live):
            if entry.event.writes == variable:
                return entry.ticket
        raise Refused(Number.NEVER_WRITTEN)

    def remove(self, gone: list[Live]) -> None:
        tickets = {entry.ticket for entry in gone}
        self.live = [entry for entry in self.live if entry.ticket not in tickets]
        self.run = None

    def replayed(self) -> State:
        """The state to which the live events run from the opening."""
        state = opening_state(self.system)
        for entry in self.live:
            [event] = [event for event in possible_events(state) if event.text == entry.event.text]
            state = after(state, event)
        return state

    def variable(self, name: bytes) -> Variable | None:
        return next((one for one in self.system.variables if one.name.encode() == name), None)

    def value(self, variable: Variable) -> int:
        return self.state.store[variable.number]
