"""What a module says of itself, against the program's text and JSON."""
from __future__ import annotations

import json
import operator
import pathlib
import random
from typing import Any, Callable, Dict, List, Optional, Tuple

import pytest

from shared import IMAGES, cmisctl, example, image_by_chance, image_of
from dovecounter import (
    LOWER,
    ConfigStatus,
    Fault,
    Family,
    Flags,
    Image,
    Inventory,
    Key,
    Limits,
    ModuleState,
    Monitors,
    PathState,
    Support,
    dumps,
    page,
)

DR4 = example("qsfp_dd_400g_dr4.txt")


def inventory_lines(found: Inventory) -> List[str]:
    """What `cmisctl inventory` prints."""
    lines = {
        "family": found.family.name.replace("_", "-"),
        "identifier": code(found.identifier),
        "revision": found.revision and "{}.{}".format(*found.revision),
        "memory": either(found.is_flat, "flat", "paged"),
        "media-type": code(found.media_type),
        "vendor": found.vendor,
        "oui": found.oui.hex(),
        "part": found.part,
        "part-revision": found.part_revision,
        "serial": found.serial,
        "date": found.date,
        "power-class": found.power_class,
        "max-power": amount(found.max_power_mw, "W"),
        "length": amount(found.length_mm, "m"),
        "connector": code(found.connector),
        "technology": code(found.technology),
        either(found.family == Family.CMIS, "sum-00h", "sum-base"): right(found.sum_base_right),
        "sum-ext": right(found.sum_ext_right),
    }
    return [f"{name} {value}" for name, value in lines.items() if value is not None]


def code(byte: Optional[int]) -> Optional[str]:
    return None if byte is None else f"{byte:02X}h"


def amount(number: Optional[int], unit: str) -> Optional[str]:
    if number is None:
        return None
    minus, number = "-" if number < 0 else "", abs(number)
    return f"{minus}{number // 1000}.{number % 1000:03} {unit}"


def either(is_first: Optional[bool], first: str, second: str) -> Optional[str]:
    return None if is_first is None else first if is_first else second


def right(is_right: Optional[bool]) -> Optional[str]:
    return either(is_right, "right", "wrong")


def inventory_object(found: Inventory) -> Dict[str, Any]:
    """What `cmisctl inventory --json` prints."""
    said: Dict[str, Any] = {"dovecounter": 1, **vars(found)}
    said.update(family=found.family.name.replace("_", "-"), oui=found.oui.hex())
    if found.family == Family.CMIS:
        said["revision"] = "{}.{}".format(*said["revision"])
        said["memory"] = either(found.is_flat, "flat", "paged")
        said.update(max_power_w=said["max_power_mw"] / 1000, length_m=said["length_mm"] / 1000)
        said["sum_00h_right"] = said.pop("sum_base_right")
    for name in ("is_flat", "max_power_mw", "length_mm"):
        del said[name]
    return {key: value for key, value in said.items() if value is not None}


def state(shown: Any) -> str:
    return shown.name if isinstance(shown, (ModuleState, PathState)) else f"reserved-{shown}"


def status(shown: Any) -> str:
    if isinstance(shown, ConfigStatus):
        return shown.name
    return f"{'custom' if shown > 12 else 'reserved'}-{shown}"


def flag_lines(found: Flags) -> List[str]:
    """What `cmisctl flags` prints, its flags in the order of their names and lanes."""
    lines = [] if found.state is None else [f"state {state(found.state)}"]
    lines += [
        f"lane {lane} {state(path)} {status(config)}"
        for lane, (path, config) in enumerate(zip(found.path_states, found.statuses), 1)
    ]
    raised = [f"flag {name} {lane}" if lane else f"flag {name}" for name, lane in found.raised]
    return lines + (sorted(raised) or ["flag none"])


def flags_in_order(lines: List[str]) -> List[str]:
    flags = [line for line in lines if line.startswith("flag ")]
    return [line for line in lines if line not in flags] + sorted(flags)


def monitor_lines(found: Monitors) -> List[str]:
    """What `cmisctl monitors` prints."""
    lines: List[str] = []
    for name, unit in (("temperature", "C"), ("vcc", "mV")):
        of_module = getattr(found, name)
        lines.append(f"{name} {amount(of_module.value, unit)}")
        lines += limits(name, of_module.limits)
    for name, unit in (("tx-power", "uW"), ("tx-bias", "mA"), ("rx-power", "uW")):
        of_lanes = getattr(found, name.replace("-", "_"))
        if found.lanes and of_lanes.support != Support.MEASURED:
            is_reserved = of_lanes.support == Support.RESERVED_MULTIPLIER
            lines.append(f"{name} {either(is_reserved, 'reserved', 'unsupported')}")
        for lane, value in enumerate(of_lanes.values, 1):
            lines.append(f"{name} {lane} {amount(value, unit)}")
        lines += limits(name, of_lanes.limits)
    if found.sum_right is not None:
        name = either(found.family == Family.CMIS, "sum-02h", "sum-a2") or ""
        lines.append(f"{name} {right(found.sum_right)}")
    return lines


def limits(name: str, levels: Optional[Limits]) -> List[str]:
    shown = [amount(level, "") or "" for level in vars(levels).values()] if levels else []
    return [f"{name}-limits {''.join(shown).rstrip()}"] if shown else []


def said(ask: Callable[[Image], Any], say: Callable[[Any], List[str]], image: Image) -> List[str]:
    """The lines of what is found, or of the fault."""
    try:
        return say(ask(image))
    except Fault as fault:
        return [f"fault {fault}"]


def compare(image: Image) -> Tuple[str, str, str]:
    """Compares the reports with the program's; gives how they begin."""
    text = image.to_text()
    inventory = said(Image.inventory, inventory_lines, image)
    assert inventory == cmisctl("inventory", text)
    flags = said(Image.flags, flag_lines, image)
    assert flags == flags_in_order(cmisctl("flags", text))
    monitors = said(Image.monitors, monitor_lines, image)
    assert monitors == cmisctl("monitors", text)
    return inventory[0][:9], flags[0][:9], monitors[0][:9]


@pytest.mark.parametrize("path", IMAGES, ids=operator.attrgetter("name"))
def test_what_a_module_is_and_its_flags_are_what_the_program_prints(path: pathlib.Path) -> None:
    image = image_of(path)
    _, begin_of_flags, _ = compare(image)
    found = json.loads("\n".join(cmisctl("inventory --json", image.to_text())))
    assert inventory_object(image.inventory()) == found
    if begin_of_flags.startswith("fault"):
        return
    raised = json.loads("\n".join(cmisctl("flags --json", image.to_text())))
    flags = image.flags()
    assert raised.get("state") == flags.state
    lanes = raised.get("lane", [])
    assert [lane["path_state"] for lane in lanes] == list(flags.path_states)
    assert [lane["config_status"] for lane in lanes] == list(flags.statuses)
    told = [(flag["name"], flag.get("lane")) for flag in raised["flag"]]
    assert sorted(told, key=str) == sorted(flags.raised, key=str)


def test_images_by_chance_say_what_the_program_prints() -> None:
    chance = random.Random(11)
    begins = {begin for _ in range(500) for begin in compare(image_by_chance(chance))}
    faults = {begin[6:] for begin in begins if begin.startswith("fault ")}
    assert faults == {"RP1", "RP4", "RP6", "SF3", "SF4", "SF5", "SF6"}
    assert {"family CM", "family SF", "state Mod", "state res", "flag none"} <= begins


def test_a_fault_names_the_half_that_is_absent() -> None:
    sfp = example("sfp_10g_lr.txt")
    for image in (
        DR4.without(LOWER),
        DR4.without(page(0x00)),
        DR4.without(page(0x11)),
        sfp.without(Key(0xA2)),
    ):
        compare(image)
    assert said(Image.flags, flag_lines, sfp.without(Key(0xA2))) == ["fault SF3 lower A2"]


@pytest.mark.parametrize("path", IMAGES, ids=operator.attrgetter("name"))
def test_a_report_needs_the_halves_that_are_wanted_for_it(path: pathlib.Path) -> None:
    image = image_of(path)
    wanted = dumps.wanted(image.halves[LOWER])
    reports: Dict[str, Callable[[Image], Any]] = {
        "inventory": Image.inventory,
        "flags": Image.flags,
        "monitors": Image.monitors,
    }
    for command, ask in reports.items():
        if said(ask, lambda _: [], image):
            continue  # the module has no such report
        for key in image.halves:
            is_needed = key == LOWER or command in wanted.get(str(key), [])
            lacking = said(ask, lambda _: [], image.without(key))
            faults = [f"fault RP6 {key}"], [f"fault SF3 {key}"]
            assert lacking in faults if is_needed else lacking == []


# The codes of "Durations Advertising" (page 01h, bytes 144, 167 and 168): the end of each range, in
# milliseconds. 13 to 15 are reserved, and nothing bounds them.
ENDS = (1, 5, 10, 50, 100, 500, 1000, 5000, 10000, 60000, 300000, 600000, 3000000)


def test_durations_are_those_of_their_codes() -> None:
    def at(address: int, byte: int) -> Image:
        image = DR4.changed(page(0x01), address, bytes([byte]))
        half = image.halves[page(0x01)]
        return image.changed(page(0x01), 255, bytes([sum(half[2:127]) % 256]))

    for code in range(16):
        end = ENDS[code] if code < len(ENDS) else None
        for address, low, high in (
            (144, "path_init", "path_deinit"),
            (167, "module_power_up", "module_power_down"),
            (168, "path_tx_turn_on", "path_tx_turn_off"),
        ):
            assert getattr(at(address, code).durations(), low) == end
            assert getattr(at(address, code << 4).durations(), high) == end
            assert getattr(at(address, code << 4).durations(), low) == 1


def test_the_sum_of_page_00h_has_each_of_its_bytes() -> None:
    images = []
    for address in (128, 129, 200, 220, 221):
        half = DR4.halves[page(0x00)]
        wrong = DR4.changed(page(0x00), address, bytes([half[address - 128] + 7 & 255]))
        right = wrong.changed(page(0x00), 222, bytes([half[222 - 128] + 7 & 255]))
        images += [(wrong, "AD5 0"), (right.changed(page(0x01), 255, b"\0"), "AD5 1")]
    for image, told in images:
        assert said(Image.advertisement, lambda _: [], image) == [f"fault {told}"]
    for image, told in images:
        assert cmisctl("apps", image.to_text()) == [f"fault {told}"]
