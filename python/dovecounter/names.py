"""The names of codes, as `cmisctl details` prints them."""
from __future__ import annotations

from enum import IntEnum

from . import library
from .faults import look_at


class Table(IntEnum):
    """Which table of SFF-8024, CMIS, SFF-8636 or SFF-8472 has the name, by what it names; by the
    library's number. The code of `SFF_8636_COMPLIANCE`, `INFINIBAND_SPEEDS` or
    `SFF_8472_COMPLIANCE` is a bit, counted from bit 0 of their first byte."""

    IDENTIFIERS = 1
    CONNECTORS = 2
    SFF_8472_ENCODINGS = 3
    SFF_8636_ENCODINGS = 4
    EXTENDED_COMPLIANCE = 5
    HOST_INTERFACES = 6
    MULTI_MODE_MEDIA = 7
    SINGLE_MODE_MEDIA = 8
    PASSIVE_COPPER = 9
    ACTIVE_CABLES = 10
    BASE_T_MEDIA = 11
    MEDIA_TYPES = 12
    MEDIA_TECHNOLOGIES = 13
    MODULE_FAULTS = 14
    DURATIONS = 15
    SQUELCH_METHODS = 16
    OUTPUT_EQUALIZERS = 17
    SFF_8636_REVISIONS = 18
    SFF_8636_RATE_SELECTS = 19
    SFF_8636_COMPLIANCE = 20
    INFINIBAND_SPEEDS = 21
    SFF_8472_EXTENDED_IDENTIFIERS = 22
    SFF_8472_REVISIONS = 23
    SFF_8472_RATE_SELECTS = 24
    SFF_8472_COMPLIANCE = 25
    SFP_PASSIVE_CABLES = 26
    SFP_ACTIVE_CABLES = 27


def code_name(table: Table, code: int) -> str:
    """What a table says of a code, 0 to 255: its name, or `reserved`, `vendor specific` or
    `not listed`."""
    return library.name("code", Table(table), look_at("the code", code, 255))


def media_name(media_type: int, code: int) -> str:
    """The same of a MediaInterfaceID, by the media type of its module (CMIS)."""
    look_at("the media type", media_type, 255)
    return library.name("media", media_type, look_at("the code", code, 255))
