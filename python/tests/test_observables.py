"""What a module measures against what the program prints of it."""
from __future__ import annotations

import dataclasses
import json
from decimal import Decimal
from fractions import Fraction
from typing import Any, Dict, Optional

import pytest

from dovecounter import LOWER, Amount, Fault, Image, Observable, Side, page
from shared import FOUR_GROUPS, IMAGES, cmisctl, example, image_of

VDM = example("osfp_800g_vdm.txt")


def exact(number: Optional[Decimal]) -> Optional[Fraction]:
    return None if number is None else Fraction(number)


def shown(amount: Optional[Amount]) -> Optional[Fraction]:
    """Its exact number, or, if it has no end in decimal, the thousandths that the program prints."""
    if amount is None:
        return None
    if amount.divisor == 1:
        return amount.fraction
    return Fraction(amount.fraction * 1000 // 1, 1000)


def compare(found: Observable, printed: Dict[str, Any]) -> None:
    assert found.quantity == printed["name"]
    assert found.figure == printed["figure"]
    assert found.scope == printed["scope"]
    assert found.lane == printed.get("number")
    assert found.unit == printed["unit"]
    assert found.advertised == printed["advertised"]
    assert shown(found.amount) == exact(printed.get("amount"))
    levels = vars(found.limits).items()
    assert {name: shown(level) for name, level in levels} == {
        name: exact(printed["limits"].get(name)) for name, _ in levels
    }
    assert (found.flags and vars(found.flags)) == printed.get("flags")


def compare_all(image: Image) -> int:
    text = "\n".join(cmisctl("observables --json", image.to_text()))
    printed = json.loads(text, parse_float=Decimal, parse_int=lambda digits: int(digits))[
        "observables"
    ]
    found = image.observables()
    assert len(found) == len(printed)
    for one, other in zip(found, printed):
        compare(one, other)
    return len(found)


@pytest.mark.parametrize("path", IMAGES, ids=str)
def test_observables_are_what_the_program_prints(path: Any) -> None:
    image = image_of(path)
    try:
        image.observables()
    except Fault as fault:
        assert cmisctl("observables", image.to_text()) == [f"fault {fault}"]
    else:
        compare_all(image)


def test_each_group_of_each_bank_is_listed() -> None:
    four = image_of(FOUR_GROUPS)
    assert len(four.halves) > 16 and compare_all(four) == 26 + 4 * 57
    assert four.observables() == four.monitored() + four.listed()
    first = four.without(*(page(number + group) for number in (0x20, 0x24) for group in (1, 2, 3)))
    assert four.listed()[:57] == first.listed() and four.monitored() == VDM.monitored()
    lacking = four.without(page(0x22), page(0x25), page(0x2B))
    assert compare_all(lacking) == 26 + 3 * 57
    halves = four.without(page(0x24), page(0x2F)).halves
    listing = {key.page: half for key, half in halves.items() if key.page >= 0x20}
    for bank in (1, 3, 4):  # of which the last is none
        halves.update({page(number, bank): half for number, half in listing.items()})
    assert compare_all(Image(halves)) == 26 + 3 * 4 * 57
    of_a2 = {page(key.page, 0, 0xA2): half for key, half in four.halves.items() if key.upper}
    assert Image({**four.halves, **of_a2}).observables() == four.observables()


def test_lanes_of_each_advertised_bank_are_listed() -> None:
    for code, banks in enumerate((1, 2, 4, 1)):
        wide = VDM.changed(page(0x01), 142, bytes([0x40 | code]))
        further = {page(0x11, bank): bytes([bank] * 128) for bank in (1, 2, 3)}
        image = Image({**wide.halves, **further})
        assert compare_all(image) == 83 + 24 * (banks - 1)
        lanes = [found.lane for found in image.monitored() if found.quantity == "rx-power"]
        assert lanes == list(range(1, 8 * banks + 1))
        assert compare_all(image.without(page(0x11, 1))) == 83 + 24 * max(banks - 2, 0)


def test_what_is_missing_is_not_known() -> None:
    halves = dict(VDM.halves)
    for number in (0x24, 0x28, 0x2C):
        del halves[page(number)]
    assert compare_all(Image(halves)) == 83
    last = Image(halves).observables()[-1]
    assert last.amount is None and last.value is None and last.flags is None
    assert set(vars(last.limits).values()) == {None}


def test_an_observable_of_the_module_and_one_of_a_data_path() -> None:
    first, last = VDM.observables()[0], VDM.observables()[-1]
    assert (first.quantity, first.figure, first.scope, first.lane) == (
        "temperature",
        "now",
        "module",
        None,
    )
    assert first.amount == Amount(4550000000, -8, 1) and first.value == 45.5
    assert dataclasses.replace(first, amount=Amount(0, -8, 1)).value == 0.0
    assert dataclasses.replace(first, amount=None).value is None
    assert float(first.amount) == 45.5 and first.amount.fraction == Fraction(91, 2)
    assert first.limits.low_alarm == Amount(-500000000, -8, 1)
    assert first.to_dict()["side"] == "MEDIA"
    assert (last.quantity, last.side, last.scope, last.lane) == (
        "errored-frames",
        Side.MEDIA,
        "media-path",
        5,
    )
    assert any(it.side == Side.HOST and it.scope == "host-path" for it in VDM.observables())
    assert "<th>quantity</th>" in first._repr_html_()


def test_what_is_refused() -> None:
    lower = VDM.halves[LOWER]
    for first, fault in ((bytes(128), "RP1 0"), (lower[:1] + b"\x60" + lower[2:], "RP4 96")):
        with pytest.raises(Fault) as raised:
            Image({LOWER: first}).observables()
        assert str(raised.value) == fault
    with pytest.raises(Fault) as raised:
        Image({page(0): bytes(128)}).observables()
    assert str(raised.value) == "RP6 lower A0"
