"""A simulated module, for tests without hardware (docs/module.md)."""
from __future__ import annotations

from ctypes import byref, c_uint8
from dataclasses import astuple, dataclass
from typing import Optional, Tuple

from . import library
from .faults import CODES, Fault, first_refused, look_at, look_at_type
from .image import Image, page
from .procedures import Operation, Reply
from .states import ConfigStatus, ModuleState, PathState

_NO_RANGE, _NOT_TAKEN = 62, 63
_ACTIVE = 206  # the address of the Active Control Set in page 11h

_begin = library.function("module_begin")
_fetch = library.function("module_fetch")
_store = library.function("module_store")
_tick = library.function("module_tick")
_pin = library.function("module_pin")
_active = library.function("module_active")


@dataclass(frozen=True)
class Delays:
    """How many ticks each work of a module takes, 1 to 1000."""

    apply: int = 4
    init: int = 4
    turn_on: int = 4
    turn_off: int = 4
    deinit: int = 4
    power_up: int = 4
    power_down: int = 4


class SimulatedModule:
    """The module of an image, which needs the lower half and the pages 00h, 01h, 10h and 11h of
    0xA0. It changes by itself; time passes by `tick` and `transact` alone. Raises a Fault of SM1,
    AD1 to AD6, SM3 or SM4 if there is no such module."""

    def __init__(self, image: Image, delays: Delays = Delays()) -> None:
        look_at_type("the image", image, Image)
        for name, delay in vars(look_at_type("the record of delays", delays, Delays)).items():
            look_at(f"the delay {name}", delay, 2**16 - 1)
        self._image = image
        self._halves = image.arguments(*image.halves)
        self._saved = library.Module()
        numbers = library.Delays(*astuple(delays))

        def status(of: Image) -> int:
            return int(_begin(*of.arguments(*of.halves), byref(numbers), byref(self._saved)))

        def is_wrong(lanes: int) -> bool:
            """Whether the active bytes of the first lanes alone are no paths."""
            return (
                CODES.get(status(image.changed(page(0x11), _ACTIVE + lanes, bytes(8 - lanes))))
                == "SM4"
            )

        answer = status(image)
        if CODES.get(answer) == "SM4":
            raise Fault("SM4", first_refused(8, is_wrong))
        image.take(answer)

    def __repr__(self) -> str:
        states = " ".join(state.name for state in self.path_states)
        active = self.active.hex(" ")
        return f"<SimulatedModule in {self.state.name}, active {active}, lanes {states}>"

    def copy(self) -> SimulatedModule:
        """Another module, in the same state."""
        other = SimulatedModule.__new__(SimulatedModule)
        other.__setstate__(self.__getstate__())
        return other

    __copy__ = copy

    def __getstate__(self) -> Tuple[Image, bytes]:
        return self._image, bytes(self._saved)

    def __setstate__(self, state: Tuple[Image, bytes]) -> None:
        self._image, saved = state
        self._halves = self._image.arguments(*self._image.halves)
        self._saved = library.Module.from_buffer_copy(saved)

    def fetch(self, device: int, offset: int, count: int) -> Optional[bytes]:
        """1 to 128 bytes of one half, or None if the module refuses. A flag that is read becomes 0.
        Raises ValueError if there is no such device (0xA0 or 0xA2), or the bytes are none, too many
        or of two halves."""
        data = (c_uint8 * look_at("the number of bytes", count, 128, least=1))()
        _look_at_place(device, offset)
        status = _fetch(*self._halves, byref(self._saved), device, offset, data, count)
        return bytes(data) if _is_taken(status) else None

    def store(self, device: int, offset: int, data: bytes) -> bool:
        """Stores 1 to 8 bytes in one half, one after the other, and says whether the module took
        them. A store that is cut short is a store of its first bytes. Raises ValueError as `fetch`
        does."""
        if not isinstance(data, (bytes, bytearray)):
            raise TypeError(f"the bytes are {data!r}, and no bytes")
        look_at("the number of bytes", len(data), 8, least=1)
        _look_at_place(device, offset)
        return _is_taken(
            _store(*self._halves, byref(self._saved), device, offset, bytes(data), len(data))
        )

    def transact(self, operation: Operation) -> Reply:
        """Makes an operation, lets a tick pass, and says what came of it."""
        if operation.data is not None:
            reply: Reply = self.store(operation.device, operation.offset, operation.data)
        else:
            reply = self.fetch(operation.device, operation.offset, operation.count) or False
        self.tick()
        return reply

    def tick(self, count: int = 1) -> None:
        """Lets ticks pass."""
        for _ in range(look_at("the number of ticks", count, 2**63 - 1)):
            _expect_module(_tick(byref(self._saved)))

    def hold_low_power_pin(self, on: bool) -> None:
        """The host holds the pin that requests low power, or leaves it."""
        _expect_module(_pin(byref(self._saved), bool(on)))

    @property
    def active(self) -> bytes:
        """The control bytes in the Active Control Set, lane 1 first."""
        active = library.Lanes()
        _expect_module(_active(byref(self._saved), active))
        return bytes(active)

    @property
    def state(self) -> ModuleState:
        return ModuleState(self._saved.state)

    @property
    def path_states(self) -> Tuple[PathState, ...]:
        """Of host lanes 1 to 8."""
        return tuple(PathState(lane.path) for lane in self._saved.lanes)

    @property
    def statuses(self) -> Tuple[ConfigStatus, ...]:
        """Of host lanes 1 to 8."""
        return tuple(ConfigStatus(lane.status) for lane in self._saved.lanes)


def _look_at_place(device: int, offset: int) -> None:
    look_at("the device", device, 255)
    look_at("the address", offset, 255)


def _is_taken(status: int) -> bool:
    if status == _NO_RANGE:
        raise ValueError("the device is neither 0xA0 nor 0xA2, or the bytes are of two halves")
    if status != _NOT_TAKEN:
        _expect_module(status)
    return status != _NOT_TAKEN


def _expect_module(status: int) -> None:
    if status:
        raise AssertionError(f"the library answered status {status}")
