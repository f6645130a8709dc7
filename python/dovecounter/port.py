"""The manager of one port, which keeps its module as it is wanted (docs/manager.md)."""
from __future__ import annotations

import asyncio
import contextlib
import copy
import time
from ctypes import byref, c_uint8
from dataclasses import astuple, dataclass
from enum import Enum, IntEnum
from typing import (
    Any,
    AsyncIterator,
    Awaitable,
    Callable,
    Dict,
    Iterator,
    Mapping,
    Optional,
    Tuple,
    Union,
)

from . import library
from .faults import CODES, look_at, look_at_bytes, look_at_choice, look_at_type
from .image import HALF, Key
from .planning import weights_of
from .procedures import Operation, Reply, outcome_of
from .showing import Record
from .states import ConfigStatus, PathState, known

_DO, _UNTIL, _BUSY = 0, 1, 2
_NO_REPLY = 34
_STORE = 1
_LEFT = {1: "no page 11h", 2: "no plan", 3: "needs power", 4: "needs permission", 5: "asleep"}
_OVERDUE = 8
_LONGEST_PAUSE = 1000  # after which it is looked whether somebody has called the port meanwhile

_new = library.function("port_new")
_plug = library.function("port_plug")
_pull = library.function("port_pull")
_reconsider = library.function("port_reconsider")
_hold = library.function("port_hold")
_request = library.function("port_request")
_hear = library.function("port_hear")
_acknowledge = library.function("port_acknowledge")
_next = library.function("port_next")
_take = library.function("port_take")
_count = library.function("bank_count")
_acknowledge_bank = library.function("bank_acknowledge")


@dataclass(frozen=True)
class Times:
    """How long a port waits, in milliseconds."""

    settle: int = 2000
    """after a plug, until the module answers"""
    period: int = 1000
    """between two looks at a module that is as it is wanted"""
    first: int = 1000
    """after a first failure; doubled with each failure that follows"""
    most: int = 60000
    """after a failure at most"""
    recheck: int = 0
    """after a module was left alone, until it is read and judged anew: one that reset itself while it was
    read seems to lack pages; 0: not before somebody asks"""


class Stage(IntEnum):
    """What is in a port."""

    ABSENT = 0
    LEFT = 1
    READING = 2
    WAKING = 3
    PROVISIONING = 4
    ACTIVATING = 5
    WATCHING = 6
    SLEEPING = 7
    CONFIRMING = 8


class Kind(IntEnum):
    """What a reply led to."""

    DROPPED = 0
    WENT = 1
    PAUSED = 2
    FAILED = 3
    LEAVES = 4


class Note(IntEnum):
    """How it went on."""

    QUIET = 0
    IDENTIFIED = 1
    WOKEN = 2
    PROVISIONED = 3
    CAME_UP = 4
    STILL_UP = 5


class Failure(IntEnum):
    """What has failed."""

    UNREAD = 1
    ASLEEP = 2
    NOT_WOKEN = 3
    NOT_PROVISIONED = 4
    NOT_ACTIVATED = 5
    UNSEEN = 6
    CHANGED = 7
    NOT_ASLEEP = 8
    APPLY_REFUSED = 9
    WAKING_REFUSED = 10


class PortRequest(IntEnum):
    """What somebody asks of a port."""

    WAKE = 0
    """nothing: the module is to be awake, and as it is wanted"""
    SLEEP = 1
    """the module is to be in low power, for which the lanes may go down"""
    PROVISION = 2
    """the lanes may go down, until the module is up or left alone"""
    DEACTIVATE = 3
    """no data path is to have one of the lanes, which may go down"""


class Presence(IntEnum):
    """What was heard of a module."""

    SAME = 0
    PLUGGED = 1
    PULLED = 2


class Idle(Enum):
    """Why nothing is to be done."""

    NO_REPLY = "a reply is outstanding"
    NOTHING = "no module is there, or it is left alone or held"


@dataclass(frozen=True)
class Until:
    """Nothing is to be done before this moment."""

    moment: int


@dataclass(frozen=True)
class Wanted:
    """What a port's module is wanted for."""

    weights: Mapping[int, int]
    """of each HostInterfaceID"""
    stay: int = 0
    """what an active path weighs more"""
    paired: bool = True
    counts_by_id: bool = False
    most_power: int = 255
    """in quarters of a watt; a module that needs more is not woken up; 255 is no limit"""
    may_take_down: int = 0
    """the byte of host lanes that may be taken down although they are up, but not for a sleep that somebody asks for"""


@dataclass(frozen=True)
class PortOutcome(Record):
    """What a reply led to."""

    kind: Kind
    note: Optional[Note]
    """of WENT"""
    failure: Optional[Failure]
    """of FAILED"""
    fault: Optional[str]
    """of a failure of a procedure: the code of its fault, or "overdue" """
    left: Optional[str]
    """of LEAVES: why"""
    moment: Optional[int]
    """of PAUSED and FAILED: nothing is to be done before it"""


@dataclass(frozen=True)
class PortFlag(Record):
    """A flag that was read as raised."""

    key: str
    """where: "lower", "page 11h" or, of further lanes, such as "page 11h of bank 1" """
    address: int
    bit: int
    count: int
    """how often since it was acknowledged; 65535 stands for more"""
    last: int
    """the moment when it was read last"""


@dataclass(frozen=True)
class PortLane(Record):
    """What was read of a lane, and how often that has changed. 65535 stands for more; neither a pull nor
    an acknowledgement begins anew."""

    lane: int
    state: Union[PathState, int, None]
    """None before the first read"""
    state_changes: int
    """how often a read showed another state than the one before it"""
    state_since: Optional[int]
    """the moment of the last such read"""
    status: Union[ConfigStatus, int]
    status_changes: int
    status_since: Optional[int]


class Port:
    """One port. Say what happens, make the operation that `next` gives, and pass its reply to
    `take`. Moments are milliseconds by a clock that doesn't go back. Nobody else may read the
    module."""

    def __init__(self, times: Times = Times()) -> None:
        for name, period in vars(look_at_type("the times", times, Times)).items():
            look_at(f"the time {name}", period, 2**32 - 1)
        self._saved = library.Port()
        self._place: Optional[Key] = None
        _new(byref(library.Times(*astuple(times))), byref(self._saved))

    def __repr__(self) -> str:
        return f"<Port {self.stage.name}>"

    def __copy__(self) -> Port:
        return copy.deepcopy(self)

    def plug(self, now: int) -> None:
        """A module was plugged, or may have been there all along."""
        _expect_done(_plug(byref(self._saved), _moment(now)))

    def pull(self) -> None:
        """The module was pulled."""
        _expect_done(_pull(byref(self._saved)))

    def reconsider(self) -> None:
        """Other weights are wanted, or somebody asks: the module is read and judged anew."""
        _expect_done(_reconsider(byref(self._saved)))

    def hold(self, held: bool) -> None:
        """The port is to hold still, or not any longer."""
        _expect_done(_hold(byref(self._saved), look_at_choice("whether it is held", held)))

    def request(self, request: PortRequest, lanes: int = 0) -> None:
        """Somebody asks this, in place of what was asked before, until a pull; of the lanes whose bits
        are 1."""
        look_at_type("the request", request, PortRequest)
        _expect_done(_request(byref(self._saved), request, look_at("the lanes", lanes, 255)))

    def hear(self, answered: bool, began: int, now: int) -> Presence:
        """A transaction was answered or refused, which began at a moment: so a port without a pin
        learns whether a module is there. To be called after each, once its reply was taken."""
        presence = c_uint8()
        alive = look_at_choice("whether it was answered", answered)
        _expect_done(
            _hear(byref(self._saved), alive, _moment(began), _moment(now), byref(presence))
        )
        return Presence(presence.value)

    def acknowledge(self, moment: int) -> None:
        """The flags that were last read as raised at this moment or before it are known."""
        _expect_done(_acknowledge(byref(self._saved), _moment(moment)))

    def next(self, now: int) -> Union[Operation, Until, Idle]:
        """What is to be done now."""
        found = library.PortNext()
        _expect_done(_next(byref(self._saved), _moment(now), byref(found)))
        if found.kind == _UNTIL:
            return Until(found.moment)
        if found.kind != _DO:
            return Idle.NO_REPLY if found.kind == _BUSY else Idle.NOTHING
        made = found.operation
        self._place = _place_of(found)
        data = bytes(made.bytes[: made.count]) if made.kind == _STORE else None
        return Operation(made.device, made.offset, made.count, data)

    @property
    def place(self) -> Optional[Key]:
        """Where the half lies that the operation which `next` gave last fetches; None if it fetches
        no whole one."""
        return self._place

    def take(self, reply: Reply, wanted: Wanted, now: int) -> PortOutcome:
        """Takes the reply to the operation. Raises ValueError if none is outstanding, or if it can't
        have this one."""
        outcome, data = outcome_of(reply)
        numbers, found = _numbers_of(wanted), library.PortOutcome()
        status = _take(
            byref(self._saved), outcome, data, len(data), byref(numbers), _moment(now), byref(found)
        )
        if status == _NO_REPLY:
            raise ValueError(f"no operation that is outstanding can have the reply {reply!r}")
        _expect_done(status)
        return _outcome_in(found)

    async def run_async(
        self,
        transact: Callable[[Operation], Awaitable[Reply]],
        wanted: Wanted,
        clock: Callable[[], int] = lambda: time.monotonic_ns() // 1_000_000,
        pause: Callable[[float], Awaitable[object]] = asyncio.sleep,
    ) -> AsyncIterator[PortOutcome]:
        """Makes all operations by `transact`, and yields what each led to, until nothing is to be
        done: no module is there, or it is held, or left alone without a time to `recheck` it.
        Meanwhile other tasks may call the port. If `transact` raises or returns no reply to the
        operation, or its task is cancelled, that counts as refused, and you may run the port
        again."""
        _numbers_of(wanted)  # raises before there is an operation
        while not isinstance(step := self.next(clock()), Idle):
            if isinstance(step, Until):
                await pause(min(step.moment - clock(), _LONGEST_PAUSE) / 1000)
                continue
            try:
                outcome = self.take(await transact(step), wanted, clock())
            except BaseException:
                with contextlib.suppress(ValueError):  # if its reply was taken already
                    self.take(False, wanted, clock())
                raise
            yield outcome

    @property
    def stage(self) -> Stage:
        return Stage(self._saved.stage)

    @property
    def left(self) -> Optional[str]:
        """Why the module is left alone."""
        return _reason(self._saved.left)

    @property
    def recheck_at(self) -> Optional[int]:
        """The moment from which on a module that is left alone is read and judged anew."""
        is_to_be = self.stage is Stage.LEFT and self._saved.times.recheck > 0
        return int(self._saved.recheck_at) if is_to_be else None

    @property
    def held(self) -> bool:
        return bool(self._saved.held)

    @property
    def requested(self) -> Tuple[PortRequest, int]:
        """What was asked, and of which lanes."""
        return PortRequest(self._saved.request), int(self._saved.request_lanes)

    @property
    def due(self) -> int:
        """Nothing is to be done before this moment."""
        return int(self._saved.due)

    @property
    def lanes(self) -> Tuple[PortLane, ...]:
        """The lanes as they were read last, and since when."""
        return _lanes_of(self._saved.flags, 0)

    @property
    def goal(self) -> Optional[Tuple[bytes, int]]:
        """The control bytes and the byte of host lanes that the port works for, while it does."""
        goal = self._saved.goal
        works = self.stage in (
            Stage.PROVISIONING,
            Stage.ACTIVATING,
            Stage.CONFIRMING,
            Stage.WATCHING,
        )
        return (bytes(goal.control), int(goal.lanes)) if works else None

    @property
    def flags(self) -> Tuple[PortFlag, ...]:
        """Those that were read as raised and aren't acknowledged."""
        flags = self._saved.flags
        return (
            *_raised("lower", 8, flags.module_counts, flags.module_last),
            *_raised("page 11h", 134, flags.lane_counts, flags.lane_last),
        )

    def to_dict(self) -> Dict[str, Any]:
        """All that the port says, by names."""
        goal = self.goal
        return {
            "stage": self.stage.name,
            "left": self.left,
            "held": self.held,
            "requested": [self.requested[0].name, self.requested[1]],
            "due": self.due,
            "recheck_at": self.recheck_at,
            "goal": None if goal is None else {"control": goal[0].hex(), "lanes": goal[1]},
            "lanes": [lane.to_dict() for lane in self.lanes],
            "flags": [flag.to_dict() for flag in self.flags],
        }


class FurtherLanes:
    """The lanes of one further bank, 1 to 3, counted as a `Port` counts lanes 1 to 8. Pass `count` each
    page 11h of that bank which a Reading has, once, since reading a flag clears it; the lanes outlive a
    pull, as those of a port do."""

    def __init__(self, bank: int) -> None:
        self._bank = look_at("the bank", bank, 3, least=1)
        self._saved = library.BankCounts()

    def __repr__(self) -> str:
        return f"<FurtherLanes of bank {self._bank}>"

    def __copy__(self) -> FurtherLanes:
        return copy.deepcopy(self)

    @property
    def bank(self) -> int:
        return self._bank

    def count(self, data: bytes, now: int) -> None:
        """The bank's page 11h was read: its 128 bytes."""
        data = look_at_bytes(f"page 11h of bank {self._bank}", data, HALF)
        half = library.Half(0xA0, 1, self._bank, 0x11, (c_uint8 * HALF)(*data))
        _expect_done(_count(byref(self._saved), byref(half), _moment(now)))

    def acknowledge(self, moment: int) -> None:
        """The flags that were last read as raised at this moment or before it are known."""
        _acknowledge_bank(byref(self._saved), _moment(moment))

    @property
    def lanes(self) -> Tuple[PortLane, ...]:
        """The lanes as they were read last, and since when; lane 9 is the first one of bank 1."""
        return _lanes_of(self._saved, 8 * self._bank)

    @property
    def flags(self) -> Tuple[PortFlag, ...]:
        """Those that were read as raised and aren't acknowledged; bit 0 is the bank's first lane."""
        key = f"page 11h of bank {self._bank}"
        return tuple(_raised(key, 134, self._saved.lane_counts, self._saved.lane_last))

    def to_dict(self) -> Dict[str, Any]:
        """All that was counted, by names."""
        return {
            "bank": self._bank,
            "lanes": [lane.to_dict() for lane in self.lanes],
            "flags": [flag.to_dict() for flag in self.flags],
        }


def _moment(moment: int) -> int:
    return look_at("the moment", moment, 2**64 - 1)


def _place_of(found: Any) -> Optional[Key]:
    if not found.whole:
        return None
    return Key(found.operation.device, bool(found.upper), found.bank, found.page)


def _numbers_of(wanted: Wanted) -> Any:
    look_at_type("what is wanted", wanted, Wanted)
    return library.Wanted(
        weights_of(wanted.weights),
        look_at("the weight of staying", wanted.stay, 2**32 - 1),
        look_at_choice("whether first lanes are paired", wanted.paired),
        look_at_choice("whether lanes are counted by ID", wanted.counts_by_id),
        look_at("the most power", wanted.most_power, 255),
        look_at("the lanes that may be taken down", wanted.may_take_down, 255),
    )


def _reason(left: Any) -> Optional[str]:
    if not left.reason:
        return None
    return _LEFT.get(left.reason) or CODES[left.reason]


def _fault(fault: Any) -> Optional[str]:
    if not fault.code:
        return None
    return "overdue" if fault.code == _OVERDUE else f"PV{fault.code}"


def _outcome_in(found: Any) -> PortOutcome:
    kind = Kind(found.kind)
    waits = kind in (Kind.PAUSED, Kind.FAILED)
    return PortOutcome(
        kind,
        Note(found.note) if kind is Kind.WENT else None,
        Failure(found.failure) if kind is Kind.FAILED else None,
        _fault(found.fault),
        _reason(found.left),
        int(found.moment) if waits else None,
    )


def _raised(key: str, first: int, counts: Any, last: Any) -> Iterator[PortFlag]:
    for place, (count, moment) in enumerate(zip(counts, last)):
        if count:
            yield PortFlag(key, first + place // 8, place % 8, int(count), int(moment))


def _lanes_of(counted: Any, before: int) -> Tuple[PortLane, ...]:
    """The lanes of a bank, which has so many before it."""
    states, statuses = counted.states, counted.statuses
    return tuple(
        PortLane(
            before + place + 1,
            known(PathState, states.codes[place]) if states.codes[place] else None,
            *_changes_of(states, place),
            known(ConfigStatus, statuses.codes[place]),
            *_changes_of(statuses, place),
        )
        for place in range(8)
    )


def _expect_done(status: int) -> None:
    if status:
        raise AssertionError(f"the library answered status {status}")


def _changes_of(codes: library.LaneCodes, place: int) -> Tuple[int, Optional[int]]:
    """How often a code has changed, and when last."""
    changes = int(codes.changes[place])
    return changes, int(codes.last[place]) if changes else None
