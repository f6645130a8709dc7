"""Changing the signal integrity settings of lanes that are up, and provisioning with settings
(docs/lanes.md)."""
from __future__ import annotations

from ctypes import byref
from dataclasses import dataclass
from enum import Enum
from typing import Any, Optional, Sequence, Tuple, Union

from . import library
from .faults import look_at, look_at_bytes, look_at_choice, look_at_type
from .planning import Plan
from .procedures import _Change, _OfNumbers
from .reports import Patience
from .signals import LANES, LaneSignal, SignalLimits

_OVERDUE, _NOT_PERMITTED = 8, 106

_begin = library.function("settings_begin")
_explicit_begin = library.function("explicit_begin")


class SettingsOutcome(Enum):
    """How a change of settings ended, by the library's numbers."""

    ACTIVE = 0
    """the lanes have the settings, as the active ones were read last"""
    NOT_UP = 1
    """a lane is neither DPActivated nor DPInitialized"""
    NOT_EXPLICIT = 2
    """a lane isn't under explicit control, or another control byte is staged for it"""
    NOT_STAGED = 3
    """the module shows other staged settings after all tries"""
    REJECTED = 4
    """the module rejected those of a lane"""
    NOT_ACTIVE = 5
    """a lane has other active settings after all tries"""
    OVERDUE = 6
    """out of patience"""
    GAVE_UP = 7
    """after 4096 operations"""


class SettingsReach(Enum):
    """What a change of settings may have done to the module."""

    NOTHING = 0
    """nothing was stored"""
    STAGED = 1
    """settings may be staged"""
    APPLIED = 2
    """they may be active, too"""


@dataclass(frozen=True)
class SettingsEnd:
    """How a change of settings ended."""

    outcome: SettingsOutcome
    lane: Optional[int]
    """the lowest lane that it is so with"""
    reached: SettingsReach


# by the numbers of enum dovecounter_explicit_settings
_OTHER_SETTINGS = {
    1: (SettingsOutcome.NOT_STAGED, SettingsReach.STAGED),
    2: (SettingsOutcome.NOT_ACTIVE, SettingsReach.APPLIED),
}


class SettingsFault(Exception):
    """A change of settings that ended without success, or provisioning with other settings."""

    def __init__(self, end: SettingsEnd) -> None:
        super().__init__(end)
        self.end = end

    def __str__(self) -> str:
        lane = "" if self.end.lane is None else f"lane {self.end.lane} "
        return lane + self.end.outcome.name.lower().replace("_", " ")


class SettingsChange(_OfNumbers):
    """Gives the host lanes of a byte these settings, and leaves all other lanes alone: one for all, or
    one for each of the eight. They change at once, while the lanes are up, so each has to be in
    `permitted`; else PermissionError. What the module doesn't advertise, by its `limits`, is a
    ValueError. Raises a SettingsFault while it is iterated, which has its end."""

    _calls = library.Calls("settings_")

    def __init__(
        self,
        lanes: int,
        targets: Union[LaneSignal, Sequence[LaneSignal]],
        limits: SignalLimits,
        permitted: int = 0,
        patience: Patience = Patience(),
        tries: int = 100,
    ) -> None:
        super().__init__(patience)
        change, limited = _change_of(lanes, targets, permitted, tries), _limits_of(limits)
        self._saved = library.ChangingSettings()
        self.end: Optional[SettingsEnd] = None
        """how it ended; None before"""
        status = _begin(byref(change), byref(limited), byref(self._patience), byref(self._saved))
        if status == _NOT_PERMITTED:
            raise PermissionError(library.text("status", status))
        if status:
            raise ValueError(library.text("status", status))

    def _has_ended(self) -> None:
        found = library.SettingsEnd()
        self._put_end(found)
        outcome = SettingsOutcome(found.outcome)
        self.end = SettingsEnd(outcome, found.lane or None, SettingsReach(found.reached))
        if outcome is SettingsOutcome.OVERDUE:
            raise TimeoutError(library.text("fault", _OVERDUE))
        if outcome is not SettingsOutcome.ACTIVE:
            raise SettingsFault(self.end)


class ExplicitProvisioning(_Change):
    """Puts a plan into the Active Control Set as Provisioning does, and gives the host lanes of a
    byte these settings with it, under explicit control: one for all, or one for each of the eight.
    Lanes of no data path get none; one that is kept has to be active so already. What the module
    doesn't advertise, by its `limits`, is a ValueError. Raises what Provisioning raises, and a
    SettingsFault if other settings are staged or active, after all tries."""

    _calls = library.Calls("explicit_")

    def __init__(
        self,
        plan: Plan,
        lanes: int,
        targets: Union[LaneSignal, Sequence[LaneSignal]],
        limits: SignalLimits,
        patience: Patience = Patience(),
        tries: int = 100,
    ) -> None:
        super().__init__(patience)
        given = look_at_type("the plan", plan, Plan)
        change, limited = _change_of(lanes, targets, 0, tries), _limits_of(limits)
        self._saved = library.Explicit()
        status = _explicit_begin(
            library.Lanes(*look_at_bytes("the control bytes", given.control, 8)),
            look_at("the byte of lanes", given.outside, 255),
            *map(byref, (change, limited, self._patience, self._saved)),
        )
        if status:
            raise ValueError(library.text("status", status))

    def _made(self) -> int:
        return int(self._saved.procedure.steps)

    def _kept(self) -> Tuple[Any, ...]:
        return ()

    def _has_ended(self) -> None:
        found = library.ExplicitEnd()
        self._put_end(found)
        if found.settings:
            outcome, reached = _OTHER_SETTINGS[found.settings]
            raise SettingsFault(SettingsEnd(outcome, found.lane or None, reached))
        self._ended_by(found)


def _change_of(
    lanes: int, targets: Union[LaneSignal, Sequence[LaneSignal]], permitted: int, tries: int
) -> library.SettingsChange:
    each = (targets,) * LANES if isinstance(targets, LaneSignal) else targets
    return library.SettingsChange(
        look_at("the byte of lanes", lanes, 255),
        look_at("the permitted lanes", permitted, 255),
        look_at("the tries", tries, 255),
        _targets_of(each),
    )


def _limits_of(limits: SignalLimits) -> library.SettingsLimits:
    return library.SettingsLimits(
        sum(1 << look_at("an amplitude", code, 3) for code in set(limits.amplitudes)),
        look_at("the greatest fixed equalization", limits.fixed_input, 15),
        look_at("the greatest pre-cursor", limits.pre_cursor, 15),
        look_at("the greatest post-cursor", limits.post_cursor, 15),
    )


def _targets_of(each: Sequence[LaneSignal]) -> library.SignalTargets:
    if len(each) != LANES:
        raise ValueError(f"there are settings of {len(each)} lanes, and not of {LANES}")
    found = library.SignalTargets()
    for lane, it in enumerate(each):
        look_at_type("the settings of a lane", it, LaneSignal)
        for name in ("adaptive", "recover_tx", "recover_rx"):
            bit = look_at_choice(name, getattr(it, name)) << lane
            setattr(found, name, getattr(found, name) | bit)
        for name in ("recall", "fixed_input", "pre_cursor", "post_cursor", "amplitude"):
            getattr(found, name)[lane] = look_at(name, getattr(it, name), 255)
    return found
