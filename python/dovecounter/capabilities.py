"""What a module can do in tests of a link (docs/lanes.md)."""
from __future__ import annotations

from ctypes import byref
from dataclasses import dataclass
from enum import Enum
from typing import Tuple

from . import library
from .faults import look_at, look_at_bytes

_capabilities = library.function("link_capabilities")


class Pattern(Enum):
    """What is made or checked, by the standard's codes."""

    PRBS31Q = 0
    PRBS31 = 1
    PRBS23Q = 2
    PRBS23 = 3
    PRBS15Q = 4
    PRBS15 = 5
    PRBS13Q = 6
    PRBS13 = 7
    PRBS9Q = 8
    PRBS9 = 9
    PRBS7Q = 10
    PRBS7 = 11
    SSPRQ = 12
    VENDOR = 14
    USER = 15


class Loopback(Enum):
    """Where lanes are looped back, by the library's numbers."""

    MEDIA_SIDE_OUTPUT = 1
    MEDIA_SIDE_INPUT = 2
    HOST_SIDE_OUTPUT = 3
    HOST_SIDE_INPUT = 4


@dataclass(frozen=True)
class LinkCapabilities:
    """What a module can do in tests of a link."""

    diagnostics: bool
    """whether it has pages 13h and 14h"""
    host_generator: Tuple[Pattern, ...]
    media_generator: Tuple[Pattern, ...]
    host_checker: Tuple[Pattern, ...]
    media_checker: Tuple[Pattern, ...]
    loopbacks: Tuple[Loopback, ...]
    single_host_lanes: bool
    """whether host lanes are looped back one by one; else all at once"""
    single_media_lanes: bool
    both_sides: bool
    """whether both sides are looped back at once"""
    ratios: bool
    counts: bool
    host_noise: bool
    media_noise: bool
    gates: bool


def _patterns(codes: int) -> Tuple[Pattern, ...]:
    return tuple(it for it in Pattern if codes >> it.value & 1)


def link_capabilities_of(advertised: int, data: bytes) -> LinkCapabilities:
    """By byte 142 of page 01h, and bytes 128 to 139 of page 13h."""
    found = library.LinkCapabilities()
    look_at("byte 142", advertised, 255)
    _capabilities(
        advertised, library.Advertised(*look_at_bytes("the bytes", data, 12)), byref(found)
    )
    return LinkCapabilities(
        bool(found.diagnostics),
        _patterns(found.host_generator),
        _patterns(found.media_generator),
        _patterns(found.host_checker),
        _patterns(found.media_checker),
        tuple(it for it in Loopback if found.loopbacks >> (it.value - 1) & 1),
        bool(found.single_host_lanes),
        bool(found.single_media_lanes),
        bool(found.both_sides),
        bool(found.ratios),
        bool(found.counts),
        bool(found.host_noise),
        bool(found.media_noise),
        bool(found.gates),
    )
