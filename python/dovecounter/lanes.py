"""Switching single lanes of a module: outputs, polarity and squelch (docs/lanes.md)."""
from __future__ import annotations

from ctypes import byref
from dataclasses import dataclass
from enum import Enum
from typing import Optional, Sequence

from . import library
from .faults import look_at, look_at_choice, look_at_type
from .procedures import _OfNumbers
from .reports import Patience

_OVERDUE = 8

_begin = library.function("lane_begin")


class LaneControl(Enum):
    """A control of page 10h that has one bit for each lane, by the library's numbers."""

    INPUT_POLARITY_FLIP_TX = 0
    OUTPUT_DISABLE_TX = 1
    """this and the next two are of media lanes, the others of host lanes"""
    AUTO_SQUELCH_DISABLE_TX = 2
    OUTPUT_SQUELCH_FORCE_TX = 3
    ADAPTIVE_INPUT_EQ_FREEZE_TX = 4
    OUTPUT_POLARITY_FLIP_RX = 5
    OUTPUT_DISABLE_RX = 6
    AUTO_SQUELCH_DISABLE_RX = 7


class LaneOutcome(Enum):
    """How a change of lanes ended, by the library's numbers."""

    UNCHANGED = 0
    """the lanes were as wanted"""
    CHANGED = 1
    """stored, and read back as wanted"""
    IGNORED = 2
    """the module accepted the last store, and shows something else"""
    REFUSED = 3
    """the module refused the last store, and shows something else"""
    NOT_PERMITTED = 4
    """a lane that is up would be disturbed; nothing was stored since the control was read"""
    OVERDUE = 5
    """out of patience"""
    GAVE_UP = 6
    """after 4096 operations"""


@dataclass(frozen=True)
class LaneEnd:
    """How a change of lanes ended."""

    outcome: LaneOutcome
    byte: int
    """the control as it was read last; 0 if overdue or given up"""
    up: int
    """the byte of host lanes that are up and not permitted; 0 with any other outcome"""
    stores: int
    """how often the control was stored, accepted or not"""


class LaneFault(Exception):
    """A change of lanes that ended without success."""

    def __init__(self, end: LaneEnd) -> None:
        super().__init__(end)
        self.end = end

    def __str__(self) -> str:
        up = ", ".join(str(lane + 1) for lane in range(8) if self.end.up >> lane & 1)
        return self.end.outcome.name.lower().replace("_", " ") + (up and f": {up} up")


class LaneChange(_OfNumbers):
    """Sets one control of page 10h for the lanes of a byte, or clears it, and leaves all other lanes'
    bits alone. If data paths are up that it would disturb, it stores nothing, unless `permitted` has
    their host lanes. `media_paths` has the host lanes of each media lane's data path: all eight
    where you don't know them. Raises a LaneFault while it is iterated, which has its end."""

    _calls = library.Calls("lane_")

    def __init__(
        self,
        control: LaneControl,
        lanes: int,
        on: bool,
        permitted: int = 0,
        patience: Patience = Patience(),
        media_paths: Sequence[int] = (0xFF,) * 8,
        most_stores: int = 3,
    ) -> None:
        super().__init__(patience)
        if len(media_paths) != 8:
            raise ValueError(f"there are {len(media_paths)} media lanes, and not 8")
        paths = [look_at("a byte of lanes", it, 255) for it in media_paths]
        change = library.LaneChange(
            look_at_type("the control", control, LaneControl).value,
            look_at("the byte of lanes", lanes, 255),
            look_at_choice("whether it is set", on),
            look_at("the most stores", most_stores, 255),
            look_at("the permitted lanes", permitted, 255),
            library.Lanes(*paths),
        )
        self._saved = library.ChangingLanes()
        self.end: Optional[LaneEnd] = None
        """how it ended; None before"""
        library.expect_done(_begin(byref(change), byref(self._patience), byref(self._saved)))

    def _has_ended(self) -> None:
        found = library.LaneEnd()
        self._put_end(found)
        outcome = LaneOutcome(found.outcome)
        self.end = LaneEnd(outcome, found.byte, found.lanes, found.stores)
        if outcome is LaneOutcome.OVERDUE:
            raise TimeoutError(library.text("fault", _OVERDUE))
        if outcome not in (LaneOutcome.UNCHANGED, LaneOutcome.CHANGED):
            raise LaneFault(self.end)
