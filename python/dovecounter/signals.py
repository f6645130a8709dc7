"""Signal integrity settings of a module's lanes: what they are, what a module can do, and which a file
has for a module (docs/lanes.md)."""
from __future__ import annotations

import json
import os
import re
from dataclasses import dataclass, replace
from typing import Any, Dict, Iterator, List, Mapping, Optional, Tuple, Union

from . import library
from .faults import look_at, look_at_mapping, look_at_text, look_at_type
from .reports import Inventory
from .showing import Record, Report

LANES = 8


@dataclass(frozen=True)
class LaneSignal(Record):
    """What equalizers, output and clock recovery of a lane are set to, by the codes of CMIS."""

    adaptive: bool = False
    """whether the transmitter equalizes its input by itself"""
    recall: int = 0
    """the stored equalization that it recalls; 0 recalls none"""
    fixed_input: int = 0
    """the fixed equalization of the input"""
    recover_tx: bool = False
    """whether the transmitter recovers the clock"""
    recover_rx: bool = False
    """whether the receiver does"""
    pre_cursor: int = 0
    """the output's equalization before the cursor"""
    post_cursor: int = 0
    """and after it"""
    amplitude: int = 0
    """of the output"""


Lanes = Tuple[LaneSignal, ...]


@dataclass(frozen=True)
class ModuleSignals(Report):
    """The settings of the lanes of a module, lane 1 first."""

    active: Lanes
    staged: Optional[Lanes]
    """None if page 10h is not known"""


@dataclass(frozen=True)
class SignalLimits(Report):
    """What a module can do."""

    amplitudes: Tuple[int, ...]
    """the codes that there are; without any, a target has to be 0"""
    fixed_input: int
    """the greatest codes"""
    pre_cursor: int
    post_cursor: int


def lanes_of(found: library.SignalTargets) -> Lanes:
    return tuple(
        LaneSignal(
            bool(found.adaptive >> lane & 1),
            found.recall[lane],
            found.fixed_input[lane],
            bool(found.recover_tx >> lane & 1),
            bool(found.recover_rx >> lane & 1),
            found.pre_cursor[lane],
            found.post_cursor[lane],
            found.amplitude[lane],
        )
        for lane in range(LANES)
    )


def signals_of(found: library.Settings) -> ModuleSignals:
    return ModuleSignals(
        lanes_of(found.active), lanes_of(found.staged) if found.has_staged else None
    )


def limits_of(found: library.SettingsLimits) -> SignalLimits:
    codes = tuple(code for code in range(4) if found.amplitudes >> code & 1)
    return SignalLimits(codes, found.fixed_input, found.pre_cursor, found.post_cursor)


# The names of the file, which are those of the standard, and what they set.
_NAMES = {
    "AdaptiveInputEqEnableTx": "adaptive",
    "AdaptiveInputEqRecallTx": "recall",
    "FixedInputEqTargetTx": "fixed_input",
    "CDREnableTx": "recover_tx",
    "CDREnableRx": "recover_rx",
    "OutputEqPreCursorTargetRx": "pre_cursor",
    "OutputEqPostCursorTargetRx": "post_cursor",
    "OutputAmplitudeTargetRx": "amplitude",
}

_PORTS, _OF_EACH = "PORT_MEDIA_SETTINGS", "GLOBAL_MEDIA_SETTINGS"


class SignalSettings:
    """What a file as SONiC's `optics_si_settings.json` has for modules, by port, lane speed, vendor and
    part. A port's own settings go before those of a range; those of a vendor's part before the
    vendor's, and both before `Default`; those of a lane speed before those of any."""

    def __init__(self, settings: Mapping[str, Any]) -> None:
        self._settings = look_at_mapping("the settings", settings)

    @classmethod
    def from_file(cls, name: Union[str, "os.PathLike[str]"]) -> SignalSettings:
        """Raises OSError if the file can't be read, and ValueError if it is no JSON of an object."""
        with open(name, encoding="utf-8") as file:
            found = json.load(file)
        if not isinstance(found, dict):
            raise ValueError(f"{os.fspath(name)} has no object")
        return cls(found)

    def of(
        self, identity: Inventory, lane_speed: str, port: int, base: Lanes = (LaneSignal(),) * LANES
    ) -> Optional[Lanes]:
        """The settings of the eight lanes for a module in a port at a lane speed such as `100G`; what
        they leave open stays as in `base`. None if the file has none. Raises ValueError if those it
        has are no settings."""
        look_at_type("the identity", identity, Inventory)
        look_at("the port", port, 2**32 - 1)
        lanes = [look_at_type("a lane of the base", lane, LaneSignal) for lane in base]
        if len(lanes) != LANES:
            raise ValueError(f"the base has {len(lanes)} lanes, and not {LANES}")
        try:
            found = next(self._for(identity, lane_speed, port), None)
            return None if found is None else _lanes_with(found, lanes)
        except TypeError as error:  # such as a list in place of an object, or null for a number
            raise ValueError(str(error)) from error

    def _for(self, identity: Inventory, lane_speed: str, port: int) -> Iterator[Mapping[str, Any]]:
        """Those that a module may have, of which the first count."""
        for part in self._for_port(port):
            for found in _for_speed(part, lane_speed):
                for key in (f"{identity.vendor}-{identity.part}", identity.vendor, "Default"):
                    if isinstance(found.get(key), dict):
                        yield found[key]

    def _for_port(self, port: int) -> Iterator[Mapping[str, Any]]:
        for group in (_PORTS, _OF_EACH):
            ports = self._settings.get(group, {})
            for key in look_at_mapping(group, ports):
                if any(_has_port(word, port) for word in key.split(",")):
                    yield look_at_mapping(f"the settings of ports {key}", ports[key])


def _has_port(word: str, port: int) -> bool:
    """Whether it is one of `3` or `0-31`."""
    found = re.fullmatch(r"\s*(\d+)(?:-(\d+))?\s*", word)
    if found is None:
        raise ValueError(f"{word!r} is no port, and no range of ports")
    first = int(found[1])
    return first <= port <= int(found[2] or first)


def _for_speed(part: Mapping[str, Any], lane_speed: str) -> Iterator[Mapping[str, Any]]:
    named = part.get(f"{lane_speed}_SPEED")
    if named is not None:
        yield look_at_mapping(f"the settings at {lane_speed}", named)
    yield part


def _lanes_with(settings: Mapping[str, Any], lanes: List[LaneSignal]) -> Lanes:
    for name, member in _NAMES.items():
        values = settings.get(name, {})
        for key, value in look_at_mapping(name, values).items():
            lane = _lane_of(key, name)
            number = look_at(f"{name} of {key}", _number(value), 255)
            kind = type(getattr(LaneSignal(), member))
            lanes[lane] = replace(lanes[lane], **{member: kind(number)})
    return tuple(lanes)


def _lane_of(key: str, name: str) -> int:
    """Lanes are `lane0` to `lane7`, or the setting's name with 1 to 8."""
    for before, first in (("lane", 0), (name, 1)):
        rest = key[len(before) :]
        if key.startswith(before) and rest.isdigit() and first <= int(rest) < LANES + first:
            return int(rest) - first
    raise ValueError(f"{key!r} is no lane of {name}")


def _number(value: Any) -> Any:
    """A number, which may be a text such as `3` or `0x3`."""
    return int(value, 0) if isinstance(value, str) else value
