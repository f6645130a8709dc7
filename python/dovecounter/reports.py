"""What a module says of itself: what it is and advertises, how long its states last, and which flags it
raises (docs/formats.md)."""
from __future__ import annotations

from dataclasses import dataclass
from enum import IntEnum
from math import log10
from typing import Any, Dict, Optional, Tuple, Union

from . import library
from .names import Table, code_name, media_name
from .showing import Record, Report
from .states import ConfigStatus, ModuleState, PathState, known


@dataclass(frozen=True)
class Application(Record):
    """What a data path may carry, and where it may begin. In a byte of lanes, bit i-1 stands for
    lane i."""

    number: int
    """1 to 15, its AppSelCode"""
    host_id: int
    """HostInterfaceID (SFF-8024)"""
    media_id: int
    """MediaInterfaceID (SFF-8024)"""
    host_lanes: int
    """how many a data path takes"""
    media_lanes: int
    """how many a data path takes"""
    host_starts: int
    """a byte of lanes where a data path may begin"""
    media_starts: int
    """a byte of lanes where a data path may begin"""

    @property
    def host_name(self) -> str:
        """The name of its HostInterfaceID."""
        return code_name(Table.HOST_INTERFACES, self.host_id)

    def media_name(self, media_type: Optional[int]) -> str:
        """The name of its MediaInterfaceID, by the `media_type` of the module's inventory."""
        return media_name(media_type or 0, self.media_id)


@dataclass(frozen=True)
class Advertisement(Report):
    """What a module advertises."""

    applications: Tuple[Application, ...]
    unsupported: int
    """a byte of media lanes that no data path may use"""


@dataclass(frozen=True)
class Durations(Report):
    """How long states last at most, in milliseconds, as the module advertises; None if there is no
    limit, or its code is reserved."""

    module_power_up: Optional[int]
    module_power_down: Optional[int]
    path_init: Optional[int]
    path_deinit: Optional[int]
    path_tx_turn_on: Optional[int]
    path_tx_turn_off: Optional[int]


@dataclass(frozen=True)
class Patience:
    """How long a procedure waits, in milliseconds. `image.patience()` has what suits a module."""

    pause: int = 100
    """after an operation that was refused, or is asked for again, and before the next"""
    limit: int = library.UNBOUNDED
    """for how long such pauses may last while nothing else is done; then TimeoutError is raised"""
    trusts: bool = False
    """whether the page selection is taken for known after a refusal, as cmisctl does on its module
    in software; a real module may have reset itself"""


class Family(IntEnum):
    """Whose memory map a module has, by the library's number."""

    CMIS = 1
    SFF_8636 = 2
    SFF_8472 = 3


@dataclass(frozen=True)
class Inventory(Report):
    """What a module is. Texts come without the padding at their end, and with `?` for a byte that
    is no printable ASCII. What only modules of CMIS have is None in others."""

    family: Family
    identifier: int
    """its code (SFF-8024)"""
    vendor: str
    oui: bytes
    """the vendor's organizationally unique identifier, 3 bytes"""
    part: str
    part_revision: str
    serial: str
    date: str
    """the date code"""
    connector: int
    """its code (SFF-8024)"""
    sum_base_right: bool
    """whether the sum of page 00h (CMIS), or CC_BASE, is right"""
    sum_ext_right: Optional[bool] = None
    """whether CC_EXT is right; None for CMIS"""
    revision: Optional[Tuple[int, int]] = None
    """of CMIS, its major and its minor number"""
    is_flat: Optional[bool] = None
    """whether the module has no page but 00h (CMIS)"""
    media_type: Optional[int] = None
    """its code (CMIS)"""
    power_class: Optional[int] = None
    """1 to 8 (CMIS)"""
    max_power_mw: Optional[int] = None
    """in milliwatts (CMIS)"""
    length_mm: Optional[int] = None
    """of the cable, in millimetres (CMIS)"""
    technology: Optional[int] = None
    """the code of the media interface technology (CMIS)"""

    @property
    def identifier_name(self) -> str:
        """The name of its identifier, such as `QSFP-DD`."""
        return code_name(Table.IDENTIFIERS, self.identifier)

    @property
    def connector_name(self) -> str:
        """The name of its connector, such as `LC`."""
        return code_name(Table.CONNECTORS, self.connector)

    @property
    def media_type_name(self) -> Optional[str]:
        """The name of its media type (CMIS)."""
        return _name_if_any(Table.MEDIA_TYPES, self.media_type)

    @property
    def technology_name(self) -> Optional[str]:
        """The name of its media interface technology (CMIS)."""
        return _name_if_any(Table.MEDIA_TECHNOLOGIES, self.technology)


def _name_if_any(table: Table, code: Optional[int]) -> Optional[str]:
    return None if code is None else code_name(table, code)


@dataclass(frozen=True)
class Levels(Record):
    """Which limits are passed: 0 or 1 of a value of the module itself, a byte of lanes of a value of
    the lanes."""

    high_alarm: int
    low_alarm: int
    high_warning: int
    low_warning: int


@dataclass(frozen=True)
class Flags(Report):
    """The states of a module, and the flags that it raises, a byte of lanes each: bit i-1 stands for
    lane i. A flag that a family does not have is 0."""

    family: Family
    lanes: int
    """how many lanes are told of: 8, 4 or 1; 0 if a CMIS module has flat memory"""
    state: Optional[Union[ModuleState, int]]
    """of the module (CMIS); None in other families, a number if the standard reserves it"""
    path_states: Tuple[Union[PathState, int], ...]
    """of host lanes 1 to 8; numbers as for `state`; empty unless these lanes are told of"""
    statuses: Tuple[Union[ConfigStatus, int], ...]
    """of host lanes 1 to 8, likewise"""
    path_state_changed: int
    tx_fault: int
    """of CMIS its flag `tx-failure`"""
    tx_los: int
    tx_lol: int
    tx_eq_fail: int
    rx_los: int
    rx_lol: int
    temperature: Levels
    vcc: Levels
    tx_power: Levels
    tx_bias: Levels
    rx_power: Levels

    @property
    def raised(self) -> Tuple[Tuple[str, Optional[int]], ...]:
        """The flags that are raised, each as its name in the program's report, such as `rx-los`, and
        its lane; None for a flag of the module itself."""
        found = []
        for name, member in vars(self).items():
            if isinstance(member, Levels):
                found += [(f"{name}-{level}", byte) for level, byte in vars(member).items()]
            elif name == "path_state_changed" or name.startswith(("tx_", "rx_")):
                is_of_cmis = name == "tx_fault" and self.family == Family.CMIS
                found.append(("tx-failure" if is_of_cmis else name, member))
        return tuple(
            (name.replace("_", "-"), None if name.startswith(("temperature", "vcc")) else bit + 1)
            for name, byte in found
            for bit in range(8)
            if byte >> bit & 1
        )


@dataclass(frozen=True)
class Limits(Record):
    """Of a value, in its unit."""

    high_alarm: int
    low_alarm: int
    high_warning: int
    low_warning: int


class Support(IntEnum):
    """Whether a module measures something in its lanes."""

    UNSUPPORTED = 0
    MEASURED = 1
    RESERVED_MULTIPLIER = 2
    """bias is measured, but counted by a reserved code (CMIS)"""


@dataclass(frozen=True)
class Value(Record):
    """What a module measures of itself."""

    value: int
    limits: Optional[Limits]
    """None if the memory is flat"""


class Temperature(Value):
    """In thousandths of a degree Celsius."""

    @property
    def celsius(self) -> float:
        """The same in degrees."""
        return self.value / 1000


class Voltage(Value):
    """In microvolts."""

    @property
    def volts(self) -> float:
        """The same in volts."""
        return self.value / 10**6


@dataclass(frozen=True)
class LaneValues(Record):
    """What a module measures in each lane."""

    support: Support
    values: Tuple[int, ...]
    """lane 1 first; empty unless they are measured"""
    limits: Optional[Limits]
    """None unless they are measured, and if the memory is flat"""


class LanePowers(LaneValues):
    """Light, in nanowatts."""

    @property
    def watts(self) -> Tuple[float, ...]:
        """The same in watts."""
        return tuple(value / 10**9 for value in self.values)

    @property
    def dbm(self) -> Tuple[Optional[float], ...]:
        """The same in dBm, in which 0 is a milliwatt; None for a lane that measures no light."""
        return tuple(10 * log10(value) - 60 if value > 0 else None for value in self.values)


class LaneCurrents(LaneValues):
    """In microamperes."""

    @property
    def amperes(self) -> Tuple[float, ...]:
        """The same in amperes."""
        return tuple(value / 10**6 for value in self.values)


@dataclass(frozen=True)
class Monitors(Report):
    """What a module measures, of CMIS in its media lanes. Numbers are rounded down, below zero too."""

    family: Family
    lanes: int
    """how many lanes are told of: 8, 4 or 1; 0 if a CMIS module has flat memory"""
    temperature: Temperature
    """in thousandths of a degree Celsius"""
    vcc: Voltage
    """the supply voltage, in microvolts"""
    tx_power: LanePowers
    """transmitted light, in nanowatts"""
    tx_bias: LaneCurrents
    """a laser's bias current, in microamperes"""
    rx_power: LanePowers
    """received light, in nanowatts"""
    sum_right: Optional[bool]
    """whether the sum of page 02h (CMIS) or CC_DMI (SFF-8472), in which the limits are, is right;
    None if there is no such sum"""


def advertisement_of(found: library.Advertisement) -> Advertisement:
    """What the library's numbers say."""
    applications = tuple(
        Application(*(getattr(one, name) for name, _ in library.Application._fields_))
        for one in found.applications[: found.count]
    )
    return Advertisement(applications, found.unsupported)


def durations_of(found: library.Durations) -> Durations:
    """What the library's numbers say."""
    numbers = (getattr(found, name) for name, _ in library.Durations._fields_)
    return Durations(*(None if number == library.UNBOUNDED else number for number in numbers))


def inventory_of(found: library.Identity) -> Inventory:
    """What the library's numbers say."""
    texts = {
        name: getattr(found, name).decode("ascii")
        for name in ("vendor", "part", "part_revision", "serial", "date")
    }
    family = Family(found.family)
    of_family: Dict[str, Any] = {"sum_ext_right": bool(found.sum_ext)}
    if family == Family.CMIS:
        of_family = {
            "revision": (found.revision >> 4, found.revision & 15),
            "is_flat": bool(found.flat),
            "media_type": found.media_type,
            "power_class": found.power_class,
            "max_power_mw": found.max_power,
            "length_mm": found.length,
            "technology": found.technology,
        }
    return Inventory(
        family=family,
        identifier=found.identifier,
        oui=bytes(found.oui),
        connector=found.connector,
        sum_base_right=bool(found.sum_base),
        **texts,
        **of_family,
    )


def flags_of(found: library.Flags) -> Flags:
    """What the library's numbers say."""
    members: Dict[str, Any] = {name: getattr(found, name) for name, _ in library.Flags._fields_}
    for name, member in members.items():
        if isinstance(member, library.Levels):
            members[name] = Levels(
                *(getattr(member, level) for level, _ in library.Levels._fields_)
            )
    family = Family(found.family)
    has_lanes = family == Family.CMIS and found.lanes > 0
    members.update(
        family=family,
        state=known(ModuleState, found.state) if family == Family.CMIS else None,
        path_states=tuple(known(PathState, code) for code in found.path_states if has_lanes),
        statuses=tuple(known(ConfigStatus, code) for code in found.statuses if has_lanes),
    )
    return Flags(**members)


def monitors_of(found: library.Monitors) -> Monitors:
    """What the library's numbers say."""

    def limits(of: Any) -> Optional[Limits]:
        levels = (getattr(of.limits, level) for level, _ in library.Limits._fields_)
        return Limits(*levels) if found.has_limits else None

    def of_lanes(of: Any) -> Tuple[Support, Tuple[int, ...], Optional[Limits]]:
        support = Support(of.support)
        if support != Support.MEASURED:
            return support, (), None
        return support, tuple(of.values[: found.lanes]), limits(of)

    family = Family(found.family)
    has_sum = found.has_limits and family != Family.SFF_8636
    return Monitors(
        family=family,
        lanes=found.lanes,
        temperature=Temperature(found.temperature.value, limits(found.temperature)),
        vcc=Voltage(found.vcc.value, limits(found.vcc)),
        tx_power=LanePowers(*of_lanes(found.tx_power)),
        tx_bias=LaneCurrents(*of_lanes(found.tx_bias)),
        rx_power=LanePowers(*of_lanes(found.rx_power)),
        sum_right=bool(found.sum) if has_sum else None,
    )
