"""What a module measures, as one list with exact amounts (docs/observables.md)."""
from __future__ import annotations

from dataclasses import dataclass
from enum import IntEnum
from fractions import Fraction
from typing import Any, Optional

from . import library
from .showing import Record, Report


class Side(IntEnum):
    """Whose signal is measured, by the library's number."""

    MEDIA = 1
    HOST = 2


@dataclass(frozen=True)
class Amount(Record):
    """A number exactly: `mantissa` times ten to the power of `exponent`, over `divisor`. `float` gives
    the nearest float."""

    mantissa: int
    exponent: int
    divisor: int

    @property
    def fraction(self) -> Fraction:
        """The same number."""
        return Fraction(self.mantissa, self.divisor) * Fraction(10) ** self.exponent

    def __float__(self) -> float:
        return float(self.fraction)


@dataclass(frozen=True)
class AmountLimits(Record):
    """Each None if it isn't known."""

    high_alarm: Optional[Amount]
    low_alarm: Optional[Amount]
    high_warning: Optional[Amount]
    low_warning: Optional[Amount]


@dataclass(frozen=True)
class PassedLimits(Record):
    """Which limits were passed since the flags were last read."""

    high_alarm: bool
    low_alarm: bool
    high_warning: bool
    low_warning: bool


@dataclass(frozen=True)
class Observable(Report):
    """What a module measures at one place. Texts are words of `cmisctl observables`."""

    quantity: str
    """such as `pre-fec-ber`"""
    figure: str
    """`now`, or which statistic of an interval"""
    side: Side
    scope: str
    """`module`, or a lane or data path of a side, such as `media-lane`"""
    lane: Optional[int]
    """of a data path its first; None for the module"""
    unit: str
    amount: Optional[Amount]
    """None if it isn't known"""
    limits: AmountLimits
    flags: Optional[PassedLimits]
    """None if their page is missing"""
    advertised: bool
    """whether the module says that it measures this, or each module of its family does"""

    @property
    def value(self) -> Optional[float]:
        """The amount as a float."""
        return None if self.amount is None else float(self.amount)


def _amount_of(found: library.Amount) -> Optional[Amount]:
    return Amount(found.mantissa, found.exponent, found.divisor) if found.is_known else None


def observable_of(found: library.Observable) -> Observable:
    """What the library's numbers say."""

    def members(of: Any) -> Any:
        return (getattr(of, level) for level, _ in library.Levels._fields_)

    return Observable(
        quantity=found.quantity_name.decode("ascii"),
        figure=found.figure_name.decode("ascii"),
        side=Side(found.side),
        scope=found.scope_name.decode("ascii"),
        lane=found.lane or None,
        unit=found.unit_name.decode("ascii"),
        amount=_amount_of(found.amount),
        limits=AmountLimits(*map(_amount_of, members(found.limits))),
        flags=PassedLimits(*map(bool, members(found.flags))) if found.has_flags else None,
        advertised=bool(found.advertised),
    )
