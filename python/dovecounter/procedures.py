"""Reading, provisioning and activating a module over a bus of the caller's (docs/bus.md)."""
from __future__ import annotations

import asyncio
import contextlib
import copy
import time
from ctypes import byref, c_uint8
from dataclasses import dataclass
from enum import Flag
from typing import Any, Awaitable, Callable, Dict, Optional, Tuple, TypeVar, Union

from . import library
from .faults import (
    Fault,
    LeftModuleReady,
    look_at,
    look_at_bytes,
    look_at_choice,
    look_at_type,
)
from .image import HALF, Image, Key
from .planning import Plan
from .reports import Patience

Reply = Union[bytes, bool]
"""What came of an operation: the bytes of a fetch, all of them; True if all bytes of a store were
taken; False if it was refused."""

_ENDED, _NO_REPLY = 32, 34
_STORE, _WAIT = 1, 2
_REFUSED, _STORED, _FETCHED, _WAITED = 0, 1, 2, 3
_GAVE_UP_WAITING, _OVERDUE = 4, 8
_RESET, _FAULTY = 9, 10
_VALUES = {1: 2, 4: 0}  # how many a fault PV has, if it isn't one

_Self = TypeVar("_Self", bound="Procedure")


@dataclass(frozen=True)
class Operation:
    """What to do on the bus: a fetch of `count` bytes, or a store of `data`."""

    device: int
    """the address on the bus in its 8-bit form"""
    offset: int
    """the address of the first byte, 0 to 255"""
    count: int
    """how many bytes: 1 to 8; for a Reading up to 128"""
    data: Optional[bytes]
    """those to store; None for a fetch"""

    def __repr__(self) -> str:
        data = None if self.data is None else f"bytes.fromhex('{self.data.hex(' ')}')"
        return (
            f"Operation(device=0x{self.device:02X}, offset=0x{self.offset:02X}, count={self.count},"
            f" data={data})"
        )

    @property
    def address(self) -> int:
        """The address on the bus in its 7-bit form, as Linux and smbus2 take it."""
        return self.device >> 1

    @property
    def is_store(self) -> bool:
        """Whether it is a store. Type checkers follow `data is not None`."""
        return self.data is not None


@dataclass(frozen=True)
class Wait:
    """So long nothing is to be done."""

    milliseconds: int

    @property
    def seconds(self) -> float:
        """As time.sleep and asyncio.sleep take them."""
        return self.milliseconds / 1000


Transact = Callable[[Operation], Reply]


def outcome_of(reply: Reply) -> Tuple[int, bytes]:
    """What came of an operation as the library takes it: a number, and the bytes of a fetch."""
    if isinstance(reply, bool):
        return _STORED if reply else _REFUSED, b""
    if isinstance(reply, (bytes, bytearray)):
        return _FETCHED, bytes(reply)
    raise TypeError(f"{reply!r} is neither bytes nor True nor False")


class Procedure:
    """An iterator of operations and waits. Tell of each once before you ask for the next: the reply
    to an operation, and that a wait is over. One that was not told of is given again. A refused
    operation is asked for again, up to 4096 operations in all; if the limit of its Patience is
    passed before, TimeoutError is raised; if the module is found to be reset or in ModuleFault
    while a plan is brought to it, LeftModuleReady. Nobody else may use the module meanwhile. It is
    for one run: after its end it gives no operation, and raises its fault again; to begin again,
    make another one.

        for step in procedure:
            if isinstance(step, Wait):
                time.sleep(step.seconds)
                procedure.waited()
            else:
                procedure.reply(bus(step))"""

    _calls = library.Calls("")

    def __init__(self, patience: Patience) -> None:
        given = look_at_type("the patience", patience, Patience)
        self._saved: Any = library.Conversation()
        self._halves = (library.Half * library.MOST_READ)()
        self._patience = library.Patience(
            look_at("the pause", given.pause, library.UNBOUNDED),
            look_at("the limit", given.limit, library.UNBOUNDED),
            look_at_choice("whether the selection is trusted", given.trusts),
        )

    def __repr__(self) -> str:
        return f"<{type(self).__name__} after {self._made()} operations>"

    def _made(self) -> int:
        """How many operations were told their replies."""
        return int(self._saved.saved.steps)

    def __copy__(self: _Self) -> _Self:
        return copy.deepcopy(self)

    def __iter__(self: _Self) -> _Self:
        return self

    def __next__(self) -> Union[Operation, Wait]:
        found = library.Operation()
        status = self._ask(found)
        if status == _ENDED:
            self._has_ended()
            raise StopIteration
        library.expect_done(status)
        if found.kind == _WAIT:
            return Wait(found.milliseconds)
        data = bytes(found.bytes[: found.count]) if found.kind == _STORE else None
        return Operation(found.device, found.offset, found.count, data)

    def reply(self, reply: Reply) -> None:
        """Tells once what came of the operation. Raises ValueError if it can't have this reply,
        such as fewer bytes than asked for; then it still has to be told."""
        outcome, data = outcome_of(reply)
        self._tell(outcome, data, f"the operation can't have the reply {reply!r}")

    def waited(self) -> None:
        """Tells once that a wait is over. Raises ValueError if none was asked for."""
        self._tell(_WAITED, b"", "no wait was asked for")

    def _kept(self) -> Tuple[Any, ...]:
        """What the library's calls take besides the numbers that are saved."""
        return (self._halves,)

    def _ask(self, found: library.Operation) -> int:
        return int(self._calls.next(byref(self._saved), *self._kept(), byref(found)))

    def _take(self, outcome: int, data: bytes) -> int:
        words = (outcome, data, len(data))
        return int(self._calls.reply(byref(self._saved), *self._kept(), *words))

    def _put_end(self, found: Any) -> None:
        library.expect_done(self._calls.end(byref(self._saved), *self._kept(), byref(found)))

    def _tell(self, outcome: int, data: bytes, why: str) -> None:
        status = self._take(outcome, data)
        if status == _ENDED:
            raise ValueError("it has ended, and no operation is to be made")
        if status == _NO_REPLY:
            raise ValueError(why)
        library.expect_done(status)

    def run(self, transact: Transact, pause: Callable[[float], object] = time.sleep) -> None:
        """Makes all operations by `transact`, and lets so many seconds pass by `pause` for each Wait.
        If `transact` raises or returns no reply to the operation, that counts as refused, since it
        may have been made. Call this again to go on."""
        for step in self:
            if isinstance(step, Wait):
                pause(step.seconds)
                self.waited()
                continue
            made = self._made()
            try:
                self.reply(transact(step))
            except BaseException:
                self._refuse(made)
                raise

    async def run_async(
        self,
        transact: Callable[[Operation], Awaitable[Reply]],
        pause: Callable[[float], Awaitable[object]] = asyncio.sleep,
    ) -> None:
        """As `run`, by coroutines, so that one thread may serve many modules. If the task is
        cancelled, the operation in hand counts as refused too."""
        for step in self:
            if isinstance(step, Wait):
                await pause(step.seconds)
                self.waited()
                continue
            made = self._made()
            try:
                self.reply(await transact(step))
            except BaseException:
                self._refuse(made)
                raise

    def _refuse(self, made: int) -> None:
        """Tells that the operation after so many was refused, unless its reply was told already."""
        if self._made() == made:
            with contextlib.suppress(ValueError):
                self.reply(False)

    def _has_ended(self) -> None:
        ending = library.Ending()
        self._put_end(ending)
        self._ended_by(ending)

    def _ended_by(self, ending: Any) -> None:
        if ending.fault.code == _OVERDUE:
            raise TimeoutError(library.text("fault", _OVERDUE))
        if ending.fault.code in (_RESET, _FAULTY):
            raise LeftModuleReady(ending.fault.code, ending.fault.first)
        self._end(ending)

    def _end(self, ending: Any) -> None:
        raise NotImplementedError


class _OfNumbers(Procedure):
    """A procedure of which numbers are all that is saved."""

    def _made(self) -> int:
        return int(self._saved.steps)

    def _kept(self) -> Tuple[Any, ...]:
        return ()


class _Change(Procedure):
    """A procedure that changes a module. It stops after a success; else it raises a Fault of PV1 to
    PV7, and then the module may hold any part of the change."""

    steps: Optional[int] = None
    """how many operations its success took; None before"""

    def _end(self, ending: Any) -> None:
        fault = ending.fault
        if fault.code:
            raise Fault(
                f"PV{fault.code}", *[fault.first, fault.second][: _VALUES.get(fault.code, 1)]
            )
        self.steps = ending.steps


class _OfPlan(_Change):
    def __init__(
        self, begin: Callable[..., None], plan: Plan, lanes: int, patience: Patience
    ) -> None:
        super().__init__(patience)
        self._control = plan.control
        bytes_of_lanes = library.Lanes(*look_at_bytes("the control bytes", plan.control, 8))
        begin(
            bytes_of_lanes,
            look_at("the byte of lanes", lanes, 255),
            byref(self._patience),
            byref(self._saved),
        )

    def __repr__(self) -> str:
        name, control = type(self).__name__, self._control.hex(" ")
        return f"<{name} of {control} after {self._made()} operations>"


class Provisioning(_OfPlan):
    """Puts a plan into the Active Control Set, and leaves kept data paths alone. After a success
    its other lanes are DPDeactivated until an Activation. Raises a Fault of PV1 to PV7 while it is
    iterated; after PV3, half a second later, and after PV4 make a new one to begin again."""

    _begin = staticmethod(library.function("provision_begin"))

    def __init__(self, plan: Plan, patience: Patience = Patience()) -> None:
        super().__init__(self._begin, look_at_type("the plan", plan, Plan), plan.outside, patience)


class Activation(_OfPlan):
    """Brings up the data paths of a plan that is in the Active Control Set, and takes down those of
    all other lanes. After a success the plan's lanes are DPActivated. Raises a Fault of PV1 to PV7
    while it is iterated."""

    _begin = staticmethod(library.function("activate_begin"))

    def __init__(self, plan: Plan, patience: Patience = Patience()) -> None:
        super().__init__(self._begin, look_at_type("the plan", plan, Plan), plan.lanes, patience)


class Waking(_Change):
    """Wakes a module up: clears its low power requests, by software and by the pin. After a success
    it is in ModuleReady, and may draw the most power of its `inventory()`. Raises a Fault while it
    is iterated: PV6 if the module is in ModuleFault, PV4 or PV7."""

    _begin = staticmethod(library.function("wake_begin"))

    def __init__(self, patience: Patience = Patience()) -> None:
        super().__init__(patience)
        self._begin(byref(self._patience), byref(self._saved))


class Sleeping(_Change):
    """Puts a module to sleep, by its low power request by software. After a success it is in
    ModuleLowPwr, and its data paths are down. Raises a Fault as Waking does."""

    _begin = staticmethod(library.function("sleep_begin"))

    def __init__(self, patience: Patience = Patience()) -> None:
        super().__init__(patience)
        self._begin(byref(self._patience), byref(self._saved))


class Request(Flag):
    """Which halves a Reading reads besides the lower one of 0xA0, as far as the module has them, by
    the library's bits. Those of other families than the module's request nothing."""

    CMIS_PAGE_00 = 1
    CMIS_PAGE_01 = 2
    CMIS_PAGE_02 = 4
    CMIS_PAGE_11 = 8
    SFF8636_PAGE_00 = 16
    SFF8636_PAGE_03 = 32
    SFF8472_DIAGNOSTICS = 64
    """the lower half of 0xA2"""
    EVERYTHING = 127
    """all of these, which reports and plans need, and then the lanes of further banks"""


class Reading(Procedure):
    """Reads the halves of a module that are requested, by default all that reports and plans need
    (docs/bus.md, "Reading an image"). After all of them, page 11h of the further banks that page 01h
    advertises follows, for lanes from 9 on, as far as they are there. The bus fetches at most `most`
    bytes at once, 8 to 255. Raises a Fault PV4 while it is iterated if 4096 operations did not do,
    or as many for further banks, and TimeoutError if the module is silent, for two seconds where no
    other Patience is given. A simulated module needs page 10h too, which is not read."""

    _begin = staticmethod(library.function("read_some_begin"))
    _further_banks = staticmethod(library.function("further_banks"))

    def __init__(
        self,
        most: int = HALF,
        patience: Patience = Patience(20, 2000),
        requested: Request = Request.EVERYTHING,
    ) -> None:
        super().__init__(patience)
        self._most = look_at("the number of bytes at once", most, 255, least=8)
        self._image: Optional[Image] = None
        self._made_before = 0
        self._goes_on = look_at_type("what is requested", requested, Request) == Request.EVERYTHING
        self._read(requested.value)

    @property
    def image(self) -> Image:
        """What was read; without further banks as long as these are read, and if that fails. Raises
        ValueError before."""
        if self._image is None:
            raise ValueError("the reading has not ended")
        return self._image

    def _read(self, requested: int) -> None:
        begun = byref(self._patience), byref(self._saved)
        library.expect_done(self._begin(requested, self._most, *begun))

    def _made(self) -> int:
        return self._made_before + super()._made()

    def _ask(self, found: library.Operation) -> int:
        status = super()._ask(found)
        return super()._ask(found) if status == _ENDED and self._reads_on() else status

    def _reads_on(self) -> bool:
        """Whether further banks are read from now on, since all of bank 0 was."""
        ending, requested = library.Ending(), c_uint8()
        self._put_end(ending)
        if not self._goes_on or ending.fault.code:
            return False
        self._goes_on = False
        status = self._further_banks(self._halves, self._saved.halves, byref(requested))
        library.expect_done(status)
        if requested.value == 0:
            return False
        self._end(ending)
        self._made_before = self._made()
        self._read(requested.value)
        return True

    def _end(self, ending: Any) -> None:
        if ending.fault.code == _GAVE_UP_WAITING:
            raise Fault("PV4")
        halves: Dict[Key, bytes] = {}
        for half in self._halves[: self._saved.halves]:
            halves[Key(half.device, bool(half.upper), half.bank, half.page)] = bytes(half.bytes)
        # the lower half is read again for further banks, and has lost its flags by then
        self._image = Image({**halves, **(self._image.halves if self._image else {})})
