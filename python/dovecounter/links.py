"""Testing a link by patterns and loopbacks of the module (docs/lanes.md)."""
from __future__ import annotations

from ctypes import byref
from dataclasses import dataclass
from enum import Enum
from typing import Any, Optional, Sequence, Tuple

from . import library
from .capabilities import Loopback, Pattern
from .faults import look_at, look_at_choice, look_at_type
from .observables import Amount, Side
from .procedures import _OfNumbers
from .reports import Patience

_OVERDUE = 8
_NO_PATTERN = 255
_RATIO, _COUNTS, _NOISE = 1, 2, 4

_begin = library.function("link_test_begin")
_stop = library.function("link_test_stop")
_changes = library.function("link_test_changes")
_results = library.function("link_results")


class Shown(Enum):
    """Which results are read, by the codes that select them: of all lanes, or counts of four lanes of
    one side. Those that are gated are of the last gate time."""

    ERROR_RATIOS = 1
    COUNTS_OF_HOST_1_TO_4 = 2
    COUNTS_OF_HOST_5_TO_8 = 3
    COUNTS_OF_MEDIA_1_TO_4 = 4
    COUNTS_OF_MEDIA_5_TO_8 = 5
    SIGNAL_TO_NOISE_OF_HOST = 6
    SIGNAL_TO_NOISE_OF_MEDIA = 7
    GATED_ERROR_RATIOS = 17
    GATED_COUNTS_OF_HOST_1_TO_4 = 18
    GATED_COUNTS_OF_HOST_5_TO_8 = 19
    GATED_COUNTS_OF_MEDIA_1_TO_4 = 20
    GATED_COUNTS_OF_MEDIA_5_TO_8 = 21


class LinkOutcome(Enum):
    """How a test ended, by the library's numbers."""

    TESTED = 0
    """results were read as often as wanted, while all was on"""
    SWITCHED_TWICE = 1
    NO_PAGES = 2
    """the module has no pages 13h and 14h; this and the next four stored nothing"""
    UNSUPPORTED = 3
    """it doesn't advertise this pattern, loopback or gate"""
    NO_RESULTS = 4
    """it doesn't advertise such results"""
    BOTH_SIDES = 5
    """it doesn't advertise loopbacks of both sides at once"""
    NOT_PERMITTED = 6
    """a lane that is up would be disturbed"""
    STOPPED = 7
    """by `stop`"""
    NOT_SWITCHED = 8
    """a control shows something else than was stored"""
    TOO_MANY = 9
    OVERDUE = 10
    """out of patience"""
    GAVE_UP = 11
    """after 4096 operations"""


@dataclass(frozen=True)
class LinkChange:
    """A control of page 13h that was switched, and may be on."""

    control: int
    """its byte on page 13h"""
    mask: int
    """the bits that were switched"""
    original: int
    """the byte before the test"""


@dataclass(frozen=True)
class LinkEnd:
    """How a test ended."""

    outcome: LinkOutcome
    control: int
    """the byte on page 13h that it is about, or 0"""
    still_on: Tuple[LinkChange, ...]
    """what may still be on"""


class LinkFault(Exception):
    """A test that ended without success, or left something on."""

    def __init__(self, end: LinkEnd) -> None:
        super().__init__(end)
        self.end = end

    def __str__(self) -> str:
        on = ", ".join(str(change.control) for change in self.end.still_on)
        return self.end.outcome.name.lower().replace("_", " ") + (on and f": byte {on} on")


@dataclass(frozen=True)
class LinkLane:
    """What a test has shown of a lane; None for what it doesn't read."""

    ratio: Optional[Amount]
    """the error ratio, exactly"""
    errors: Optional[int]
    bits: Optional[int]
    """of how many bits"""
    signal_to_noise: Optional[Amount]
    """in dB"""


@dataclass(frozen=True)
class LinkResults:
    """What the module showed last, lane 1 first, and the bytes of lanes that lost lock in any round."""

    host: Tuple[LinkLane, ...]
    media: Tuple[LinkLane, ...]
    lost_clock: bool
    host_generator: int
    media_generator: int
    host_checker: int
    media_checker: int


def _lane_of(found: Any) -> LinkLane:
    known, counted = found.known, bool(found.known & _COUNTS)
    return LinkLane(
        Amount(found.mantissa, found.power, 1) if known & _RATIO else None,
        found.errors if counted else None,
        found.bits if counted else None,
        Amount(found.noise, 0, 256) if known & _NOISE else None,
    )


class LinkTest(_OfNumbers):
    """Makes a pattern on the lanes of a byte, checks one there, loops lanes back, as wanted; reads
    results `rounds` times, each after `period` milliseconds, and switches all of that off again. If
    data paths are up that it would disturb, it stores nothing, unless `permitted` has their host
    lanes. `media_paths` has the host lanes of each media lane's data path: all eight where you don't
    know them. Raises a LinkFault while it is iterated, which has its end."""

    _calls = library.Calls("link_test_")

    def __init__(
        self,
        side: Side,
        lanes: int = 0xFF,
        generator: Optional[Pattern] = None,
        checker: Optional[Pattern] = None,
        loopback: Optional[Loopback] = None,
        looped: int = 0xFF,
        shown: Shown = Shown.ERROR_RATIOS,
        gate: int = 0,
        period: int = 1000,
        rounds: int = 1,
        permitted: int = 0,
        patience: Patience = Patience(),
        media_paths: Sequence[int] = (0xFF,) * 8,
        tries: int = 2,
    ) -> None:
        super().__init__(patience)
        if len(media_paths) != 8:
            raise ValueError(f"there are {len(media_paths)} media lanes, and not 8")
        paths = [look_at("a byte of lanes", it, 255) for it in media_paths]
        plan = library.LinkPlan(
            look_at("the period", period, library.UNBOUNDED),
            look_at("the number of rounds", rounds, 255),
            look_at_type("what is shown", shown, Shown).value,
            look_at("the code of the gate time", gate, 7),
            int(look_at_type("the side", side, Side) is Side.MEDIA),
            look_at("the byte of lanes", lanes, 255),
            _code_of(generator),
            _code_of(checker),
            0 if loopback is None else look_at_type("the loopback", loopback, Loopback).value,
            look_at("the lanes that are looped back", looped, 255),
            look_at("the permitted lanes", permitted, 255),
            look_at("how often a control is stored again", tries, 255),
            library.Lanes(*paths),
        )
        self._saved = library.LinkTest()
        self.end: Optional[LinkEnd] = None
        """how it ended; None before"""
        library.expect_done(_begin(byref(plan), byref(self._patience), byref(self._saved)))

    def stop(self) -> None:
        """Has it switch off what is on, and end: go on with it as before."""
        library.expect_done(_stop(byref(self._saved)))

    @property
    def changes(self) -> Tuple[LinkChange, ...]:
        """What may be on now, as far as is known. All else that was stored is as before."""
        found = library.LinkChanges()
        library.expect_done(_changes(byref(self._saved), byref(found)))
        return tuple(
            LinkChange(each.what.control, each.what.mask, each.original)
            for each in found.changes[: found.count]
        )

    def results(self, big_endian: bool = False) -> LinkResults:
        """What it has shown so far; `big_endian` if the highest byte of counts comes first."""
        found = library.LinkResults()
        library.expect_done(
            _results(
                byref(self._saved), int(look_at_choice("big_endian", big_endian)), byref(found)
            )
        )
        return LinkResults(
            tuple(map(_lane_of, found.host)),
            tuple(map(_lane_of, found.media)),
            bool(found.lost_clock),
            found.host_generator,
            found.media_generator,
            found.host_checker,
            found.media_checker,
        )

    def _has_ended(self) -> None:
        found = library.LinkEnd()
        self._put_end(found)
        self.end = LinkEnd(LinkOutcome(found.outcome), found.control, self.changes)
        if self.end.outcome is LinkOutcome.OVERDUE:
            raise TimeoutError(library.text("fault", _OVERDUE))
        good = self.end.outcome in (LinkOutcome.TESTED, LinkOutcome.STOPPED)
        if not good or self.end.still_on:
            raise LinkFault(self.end)


def _code_of(pattern: Optional[Pattern]) -> int:
    return _NO_PATTERN if pattern is None else look_at_type("the pattern", pattern, Pattern).value
