"""What a call takes where it is not given, which is part of the interface."""

from __future__ import annotations

import inspect
from dataclasses import astuple, is_dataclass
from typing import Any, Callable, Dict

import pytest

import dovecounter
from dovecounter import (
    Delays,
    ExplicitProvisioning,
    FirmwareUpdate,
    Image,
    LaneChange,
    LinkTest,
    Patience,
    Reading,
    Request,
    SettingsChange,
    Shown,
    Times,
    Wanted,
)

EACH, FOREVER = (0xFF,) * 8, Patience(100, 2**32 - 1, False)
DEFAULTS: Dict[Callable[..., Any], Dict[str, Any]] = {
    ExplicitProvisioning: {"patience": FOREVER, "tries": 100},
    FirmwareUpdate: {"hold": False},
    Image.from_file: {"name_of_a2": None},
    Image.metrics: {"all_flags": False},
    LaneChange: {"permitted": 0, "patience": FOREVER, "media_paths": EACH, "most_stores": 3},
    LinkTest: {
        "lanes": 0xFF,
        "generator": None,
        "checker": None,
        "loopback": None,
        "looped": 0xFF,
        "shown": Shown.ERROR_RATIOS,
        "gate": 0,
        "period": 1000,
        "rounds": 1,
        "permitted": 0,
        "patience": FOREVER,
        "media_paths": EACH,
        "tries": 2,
    },
    Reading: {"most": 128, "patience": Patience(20, 2000), "requested": Request.EVERYTHING},
    SettingsChange: {"permitted": 0, "patience": FOREVER, "tries": 100},
}


@pytest.mark.parametrize("call", DEFAULTS, ids=lambda call: str(call.__name__))
def test_a_call_has_its_defaults(call: Callable[..., Any]) -> None:
    words = inspect.signature(call).parameters.values()
    found = {word.name: word.default for word in words if word.default is not word.empty}
    assert found == DEFAULTS[call]


def test_records_have_theirs() -> None:
    assert astuple(Times()) == (2000, 1000, 1000, 60000, 0)
    assert Wanted({}) == Wanted({}, 0, True, False, 255, 0)
    assert Delays() == Delays(4, 4, 4, 4, 4, 4, 4)
    assert Patience() == FOREVER


RECORDS = [it for it in vars(dovecounter).values() if isinstance(it, type) and is_dataclass(it)]


@pytest.mark.parametrize("record", RECORDS, ids=lambda record: str(record.__name__))
def test_a_record_never_changes(record: Any) -> None:
    """So it may stand in a set, or under a key."""
    assert record.__dataclass_params__.frozen and record.__hash__ is not None


def test_there_are_records() -> None:
    assert len(RECORDS) > 40
