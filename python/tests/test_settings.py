"""Signal integrity settings: of images, of files, and changes of them on a module that answers at once."""
from __future__ import annotations

import copy
import dataclasses
import json
import pathlib
from typing import Dict, List, Optional, Union

import pytest

from dovecounter import (
    ExplicitProvisioning,
    Family,
    Fault,
    Image,
    Inventory,
    LaneSignal,
    ModuleSignals,
    Operation,
    Patience,
    Plan,
    Reply,
    SettingsChange,
    SettingsEnd,
    SettingsFault,
    SettingsOutcome,
    SettingsReach,
    SignalLimits,
    SignalSettings,
    Wait,
    page,
)
from shared import example

LIMITS = SignalLimits((1, 2, 3), 9, 7, 5)
TARGET = LaneSignal(True, 1, 9, False, True, 7, 5, 3)
BYTES = bytes.fromhex("02 04 00 90 00 00 00 00 02 70 00 00 00 50 00 00 00 30 00 00 00")
"""TARGET on lane 2, and nothing on the others"""


class Module:
    """The settings of pages 10h and 11h. All lanes are up and under explicit control."""

    def __init__(self) -> None:
        self.pages: Dict[int, bytearray] = {0x10: bytearray(128), 0x11: bytearray(128)}
        self.pages[0x10][145 - 128 : 153 - 128] = self.pages[0x11][206 - 128 : 214 - 128] = (
            b"\x11" * 8
        )
        self.pages[0x11][:4] = b"\x44" * 4
        self.pages[0x11][202 - 128 : 206 - 128] = b"\x11" * 4
        self.selected = [0, 0]
        self.applied: List[int] = []
        self.keeps = self.answers = True

    def transact(self, operation: Operation) -> Reply:
        at = operation.offset - 128
        if not self.answers:
            return False
        if operation.data is None:
            if at >= 0:
                return bytes(self.pages[self.selected[1]][at : at + operation.count])
            return bytes(self.selected[at + 2 :][: operation.count])
        if at < 0:
            self.selected[at + 2 :] = operation.data
            return True
        assert self.selected == [0, 0x10]
        if operation.offset == 144:
            self.applied += operation.data
            self.pages[0x11][214 - 128 : 235 - 128] = self.pages[0x10][153 - 128 : 174 - 128]
        elif self.keeps:
            self.pages[0x10][at : at + operation.count] = operation.data
        return True


def run(change: SettingsChange, module: Module) -> Optional[SettingsEnd]:
    change.run(module.transact, lambda seconds: None)
    return change.end


def test_settings_are_changed() -> None:
    module = Module()
    change = SettingsChange(0x02, TARGET, LIMITS, permitted=0x02)
    assert change.end is None
    wanted = SettingsEnd(SettingsOutcome.ACTIVE, None, SettingsReach.APPLIED)
    assert run(change, module) == wanted and run(change, module) == wanted
    assert module.applied == [0x02] and module.pages[0x11][214 - 128 : 235 - 128] == BYTES
    assert repr(change).startswith("<SettingsChange after ")


def test_each_lane_may_have_its_own() -> None:
    module = Module()
    lanes = [LaneSignal(amplitude=1 + lane % 3, pre_cursor=lane) for lane in range(8)]
    run(SettingsChange(0xFF, lanes, LIMITS, permitted=0xFF), module)
    assert module.pages[0x11][223 - 128 : 227 - 128] == bytes.fromhex("10 32 54 76")
    assert module.pages[0x11][231 - 128 : 235 - 128] == bytes.fromhex("21 13 32 21")
    with pytest.raises(ValueError, match="of 7 lanes, and not of 8"):
        SettingsChange(0xFF, lanes[:7], LIMITS, permitted=0xFF)


def test_each_lane_needs_permission() -> None:
    with pytest.raises(PermissionError, match="permit each"):
        SettingsChange(0x03, TARGET, LIMITS, permitted=0x02)


@pytest.mark.parametrize(
    "target, word",
    [
        (LaneSignal(recall=4, amplitude=1), "stored equalization"),
        (LaneSignal(fixed_input=10, amplitude=1), "of the input"),
        (LaneSignal(pre_cursor=8, amplitude=1), "before the cursor"),
        (LaneSignal(post_cursor=6, amplitude=1), "after the cursor"),
        (LaneSignal(amplitude=0), "amplitude"),
    ],
)
def test_what_is_not_advertised_is_refused(target: LaneSignal, word: str) -> None:
    with pytest.raises(ValueError, match=word):
        SettingsChange(0x01, target, LIMITS, permitted=0x01)


def test_other_ends_are_faults() -> None:
    module = Module()
    module.pages[0x11][0] = 0x41
    with pytest.raises(SettingsFault, match="^lane 1 not up$") as found:
        run(SettingsChange(0x03, TARGET, LIMITS, permitted=0x03), module)
    assert found.value.end == SettingsEnd(SettingsOutcome.NOT_UP, 1, SettingsReach.NOTHING)
    module = Module()
    module.keeps = False
    with pytest.raises(SettingsFault, match="^not staged$") as found:
        run(SettingsChange(0x02, TARGET, LIMITS, permitted=0x02, tries=0), module)
    assert found.value.end.reached is SettingsReach.STAGED
    module.answers = False
    change = SettingsChange(0x02, TARGET, LIMITS, 0x02, Patience(10, 100))
    with pytest.raises(TimeoutError):
        run(change, module)
    assert change.end is not None and change.end.outcome is SettingsOutcome.OVERDUE


def test_a_change_is_copied_and_told_by_steps() -> None:
    change = SettingsChange(0x02, TARGET, LIMITS, permitted=0x02)
    other = copy.copy(change)
    first = next(change)
    assert isinstance(first, Operation) and first == next(other)
    change.reply(False)
    assert isinstance(next(change), Wait) and next(other) == first


def test_numbers_and_types_are_looked_at() -> None:
    for wrong in (256, -1):
        with pytest.raises(ValueError):
            SettingsChange(wrong, TARGET, LIMITS)
    with pytest.raises(TypeError):
        SettingsChange(1, ["no settings"] * 8, LIMITS)  # type: ignore[list-item]
    with pytest.raises(TypeError):
        SettingsChange(1, LaneSignal(adaptive=1), LIMITS)  # type: ignore[arg-type]
    with pytest.raises(ValueError):
        SettingsChange(1, TARGET, SignalLimits((4,), 0, 0, 0))
    for numbers in ((16, 0, 0), (0, 16, 0), (0, 0, 16), (-1, 0, 0)):
        with pytest.raises(ValueError, match="the greatest "):
            SettingsChange(1, TARGET, SignalLimits((1,), *numbers))


@pytest.mark.parametrize(
    "members",
    [
        *({name: 256} for name in ("recall", "fixed_input", "pre_cursor", "post_cursor")),
        *({"amplitude": number} for number in (-1, 256)),
    ],
    ids=str,
)
def test_a_setting_is_not_cut(members: Dict[str, int]) -> None:
    with pytest.raises(ValueError, match=f"^{next(iter(members))} is "):
        SettingsChange(1, dataclasses.replace(TARGET, **members), LIMITS, permitted=1)


@pytest.mark.parametrize("name", ["adaptive", "recover_tx", "recover_rx"])
def test_a_choice_of_a_setting_is_no_number(name: str) -> None:
    target = dataclasses.replace(TARGET, **{name: 1})
    with pytest.raises(TypeError, match=f"^{name} is 1, and neither True nor False$"):
        SettingsChange(1, target, LIMITS, permitted=1)


def test_the_greatest_limits_and_tries_are_taken() -> None:
    target, limits = LaneSignal(fixed_input=15, pre_cursor=15, post_cursor=15), (15, 15, 15)
    SettingsChange(1, target, SignalLimits((0, 0, 3), *limits), permitted=1, tries=255)
    for what, permitted, tries in (("tries", 1, 256), ("tries", 1, -1), ("permitted", 256, 1)):
        with pytest.raises(ValueError, match=f"^the {what}"):
            SettingsChange(1, TARGET, LIMITS, permitted, tries=tries)
    for amplitude in (-1, 4):
        with pytest.raises(ValueError, match=f"^an amplitude is {amplitude}, and not from 0 to 3"):
            SettingsChange(1, TARGET, SignalLimits((amplitude,), 0, 0, 0))


# ---- with provisioning

PLAN = Plan(1, (), bytes.fromhex("20 20 24 24 00 00 00 00"), 0x0F, 0xFF)


class Provisioned(Module):
    """The same, which applies control bytes at once, with settings of lanes under explicit control."""

    def __init__(self, state: int = 3) -> None:
        super().__init__()
        self.state = state
        self.pages[0x11][202 - 128 : 206 - 128] = b"\x11" * 4

    def transact(self, operation: Operation) -> Reply:
        at, data = operation.offset - 128, operation.data
        if self.answers and at == 3 - 128:
            return bytes([self.state << 1])
        if data is None or at not in (0, 143 - 128, 145 - 128):
            return super().transact(operation)
        controls, active = self.pages[0x10], self.pages[0x11]
        if at == 0:
            for lane in range(8):
                active[lane // 2] = 0x11 if data[0] >> lane & 1 else 0x44
        elif at == 143 - 128:
            self.applied += data
            active[206 - 128 : 214 - 128] = controls[145 - 128 : 153 - 128]
            active[214 - 128 : 235 - 128] = controls[153 - 128 : 174 - 128]
        else:
            controls[at : at + len(data)] = data
        return True


def provision(module: Provisioned, tries: int = 100, patience: Patience = Patience(10, 100)) -> int:
    change = ExplicitProvisioning(PLAN, 0x22, TARGET, LIMITS, patience, tries)
    change.run(module.transact, lambda seconds: None)
    assert change.steps is not None and repr(change).startswith("<ExplicitProvisioning after ")
    return change.steps


def test_a_plan_is_provisioned_with_settings() -> None:
    module = Provisioned()
    assert provision(module) > 20 and module.applied == [0xFF]
    assert module.pages[0x11][206 - 128 : 214 - 128] == bytes.fromhex("20 21 24 24 00 00 00 00")
    assert module.pages[0x11][214 - 128 : 235 - 128] == BYTES


def test_provisioning_with_settings_has_faults() -> None:
    module = Provisioned()
    module.keeps = False
    with pytest.raises(SettingsFault, match="^not staged$") as found:
        provision(module, tries=1)
    assert found.value.end.reached is SettingsReach.STAGED and module.applied == []
    with pytest.raises(Fault, match="PV6 1"):
        provision(Provisioned(1))
    module = Provisioned()
    module.answers = False
    with pytest.raises(TimeoutError):
        provision(module)
    with pytest.raises(ValueError, match="amplitude"):
        ExplicitProvisioning(PLAN, 0x02, LaneSignal(), LIMITS)
    with pytest.raises(ValueError, match="^the byte of lanes is 256"):
        ExplicitProvisioning(dataclasses.replace(PLAN, outside=256), 0x02, TARGET, LIMITS)
    with pytest.raises(TypeError):
        ExplicitProvisioning("no plan", 0x02, TARGET, LIMITS)  # type: ignore[arg-type]


def test_lanes_of_kept_paths_are_left_alone() -> None:
    module = Provisioned()
    kept = dataclasses.replace(PLAN, outside=0xF0)
    module.pages[0x11][206 - 128 : 210 - 128] = kept.control[:4]
    change = ExplicitProvisioning(kept, 0, TARGET, LIMITS)
    change.run(module.transact, lambda seconds: None)
    assert module.applied == [0xF0]


def stores_in_vain(
    work: Union[SettingsChange, ExplicitProvisioning], module: Module, fault: str
) -> int:
    """How often it stores settings on a module that keeps none, until it ends with this fault."""
    module.keeps = False
    stored: List[int] = []

    def transact(operation: Operation) -> Reply:
        if operation.is_store and operation.offset == 153:
            stored.append(operation.offset)
        return module.transact(operation)

    with pytest.raises(SettingsFault, match=fault):
        work.run(transact, lambda seconds: None)
    return len(stored)


@pytest.mark.parametrize("tries", [1, 5])
def test_settings_are_tried_again(tries: int) -> None:
    change = SettingsChange(0x02, TARGET, LIMITS, permitted=0x02, tries=tries)
    assert stores_in_vain(change, Module(), "^not staged$") == tries + 1


@pytest.mark.parametrize("tries", [1, 5])
def test_settings_of_a_provisioning_are_tried_again(tries: int) -> None:
    provisioning = ExplicitProvisioning(PLAN, 0x02, TARGET, LIMITS, tries=tries)
    assert stores_in_vain(provisioning, Provisioned(), "^not staged$") == tries + 1


def test_a_lane_with_other_settings_is_a_fault() -> None:
    module = Provisioned()
    kept = module.transact

    def forgetful(operation: Operation) -> Reply:
        reply = kept(operation)
        module.pages[0x11][223 - 128] = 0
        return reply

    change = ExplicitProvisioning(PLAN, 0x02, TARGET, LIMITS, tries=2)
    with pytest.raises(SettingsFault, match="^lane 2 not active$") as found:
        change.run(forgetful, lambda seconds: None)
    assert found.value.end.reached is SettingsReach.APPLIED


# ---- of images


def tuned() -> Image:
    image = example("provision_400g_dr4.txt")
    with_limits = image.halves[page(0x01)][:25] + b"\xe9\x57" + image.halves[page(0x01)][27:127]
    halves = {**image.halves, page(0x01): with_limits + bytes([sum(with_limits[2:]) % 256])}
    return Image(halves).changed(page(0x11), 214, BYTES)


def test_an_image_has_settings_and_limits() -> None:
    image = tuned()
    assert image.signal_limits() == LIMITS
    found = image.signal_settings()
    assert found.active == (LaneSignal(), TARGET, *(LaneSignal(),) * 6)
    assert found.staged == (LaneSignal(),) * 8
    assert image.without(page(0x10)).signal_settings() == ModuleSignals(found.active, None)
    assert found.to_dict()["active"][1]["pre_cursor"] == 7


def test_an_image_without_them_is_a_fault() -> None:
    with pytest.raises(Fault, match="AD4 upper A0 00 11"):
        tuned().without(page(0x11)).signal_settings()
    with pytest.raises(Fault, match="AD1 17"):
        example("qsfp28_100g_sr4.txt").signal_limits()


# ---- of files

EACH = {f"lane{lane}": 3 for lane in range(8)}
FILE = {
    "GLOBAL_MEDIA_SETTINGS": {
        "0-15,31": {
            "100G_SPEED": {
                "GOOD-PART1": {"OutputEqPreCursorTargetRx": EACH},
                "GOOD": {"OutputEqPostCursorTargetRx": {"lane0": "0x2", "lane7": "10"}},
            },
            "KNOWN": {"CDREnableTx": {"lane2": 1}},
            "Default": {"OutputAmplitudeTargetRx": {"OutputAmplitudeTargetRx8": 2}},
        }
    },
    "PORT_MEDIA_SETTINGS": {"4": {"Default": {"CDREnableRx": {"lane1": 1}}}},
}


def of(vendor: str, part: str) -> Inventory:
    return Inventory(
        family=Family.CMIS,
        identifier=0x18,
        vendor=vendor,
        oui=bytes(3),
        part=part,
        part_revision="A",
        serial="1",
        date="260101",
        connector=0,
        sum_base_right=True,
    )


def written(tmp_path: pathlib.Path, found: object) -> SignalSettings:
    (tmp_path / "settings.json").write_text(json.dumps(found))
    return SignalSettings.from_file(tmp_path / "settings.json")


@pytest.mark.parametrize(
    "vendor, part, speed, port, wanted",
    [
        ("GOOD", "PART1", "100G", 0, {lane: LaneSignal(pre_cursor=3) for lane in range(8)}),
        (
            "GOOD",
            "PART2",
            "100G",
            31,
            {0: LaneSignal(post_cursor=2), 7: LaneSignal(post_cursor=10)},
        ),
        ("GOOD", "PART1", "50G", 15, {7: LaneSignal(amplitude=2)}),
        ("OTHER", "PART1", "100G", 3, {7: LaneSignal(amplitude=2)}),
        ("KNOWN", "PART1", "100G", 3, {2: LaneSignal(recover_tx=True)}),
        ("GOOD", "PART1", "100G", 4, {1: LaneSignal(recover_rx=True)}),
    ],
)
def test_a_file_has_settings_by_port_speed_and_part(
    tmp_path: pathlib.Path,
    vendor: str,
    part: str,
    speed: str,
    port: int,
    wanted: Dict[int, LaneSignal],
) -> None:
    found = written(tmp_path, FILE).of(of(vendor, part), speed, port)
    assert found == tuple(wanted.get(lane, LaneSignal()) for lane in range(8))


def test_settings_of_any_port_go_for_a_port_without_its_own(tmp_path: pathlib.Path) -> None:
    ports = {"4": {"OTHER": {"CDREnableRx": {"lane1": 1}}}, "4,5": {"GOOD": {"CDREnableRx": EACH}}}
    found_for_each = FILE["GLOBAL_MEDIA_SETTINGS"]
    file = {"GLOBAL_MEDIA_SETTINGS": found_for_each, "PORT_MEDIA_SETTINGS": ports}
    wanted = (LaneSignal(recover_rx=True),) * 8
    assert written(tmp_path, file).of(of("GOOD", "PART1"), "100G", 4) == wanted
    found = written(tmp_path, file).of(of("FAR", "PART1"), "100G", 4)
    assert found is not None and found[7] == LaneSignal(amplitude=2)


def test_ports_may_have_spaces_between_them(tmp_path: pathlib.Path) -> None:
    file = {"GLOBAL_MEDIA_SETTINGS": {"1, 3-4 , 9": {"Default": {"CDREnableRx": EACH}}}}
    found = [written(tmp_path, file).of(of("GOOD", "PART1"), "100G", port) for port in range(11)]
    assert [port for port, lanes in enumerate(found) if lanes] == [1, 3, 4, 9]


@pytest.mark.parametrize(
    "name, wanted",
    [
        ("AdaptiveInputEqEnableTx", LaneSignal(adaptive=True)),
        ("AdaptiveInputEqRecallTx", LaneSignal(recall=1)),
        ("FixedInputEqTargetTx", LaneSignal(fixed_input=1)),
        ("CDREnableTx", LaneSignal(recover_tx=True)),
        ("CDREnableRx", LaneSignal(recover_rx=True)),
        ("OutputEqPreCursorTargetRx", LaneSignal(pre_cursor=1)),
        ("OutputEqPostCursorTargetRx", LaneSignal(post_cursor=1)),
        ("OutputAmplitudeTargetRx", LaneSignal(amplitude=1)),
    ],
)
def test_each_name_of_a_file_is_a_setting(
    tmp_path: pathlib.Path, name: str, wanted: LaneSignal
) -> None:
    file = {"GLOBAL_MEDIA_SETTINGS": {"0": {"Default": {name: {"lane2": 1, f"{name}8": "0x1"}}}}}
    found = written(tmp_path, file).of(of("GOOD", "PART1"), "100G", 0)
    assert found == tuple(wanted if lane in (2, 7) else LaneSignal() for lane in range(8))


def test_what_a_file_leaves_open_stays(tmp_path: pathlib.Path) -> None:
    found = written(tmp_path, FILE).of(of("GOOD", "PART1"), "100G", 4, (TARGET,) * 8)
    assert found == (TARGET,) * 8
    assert written(tmp_path, FILE).of(of("GOOD", "PART1"), "100G", 16) is None
    assert written(tmp_path, {}).of(of("GOOD", "PART1"), "100G", 16) is None


@pytest.mark.parametrize(
    "settings, error",
    [
        ({"OutputEqPreCursorTargetRx": {"lane8": 1}}, "'lane8' is no lane"),
        ({"OutputEqPreCursorTargetRx": {"line0": 1}}, "'line0' is no lane of OutputEqPre"),
        ({"OutputEqPreCursorTargetRx": {"OutputEqPreCursorTargetRx0": 1}}, "is no lane"),
        ({"OutputEqPreCursorTargetRx": {"lane0": "high"}}, "invalid literal"),
        ({"OutputEqPreCursorTargetRx": {"lane0": 256}}, "not from 0 to 255"),
        ({"OutputEqPreCursorTargetRx": {"lane0": None}}, "None, and no whole number"),
        ({"OutputEqPreCursorTargetRx": {"lane0": 1.5}}, "1.5, and no whole number"),
        ({"CDREnableRx": {"lane0": True}}, "True, and no whole number"),
        ({"OutputEqPreCursorTargetRx": [1]}, "no mapping"),
    ],
)
def test_what_is_no_setting_is_refused(
    tmp_path: pathlib.Path, settings: Dict[str, object], error: str
) -> None:
    file = {"GLOBAL_MEDIA_SETTINGS": {"0": {"Default": settings}}}
    with pytest.raises(ValueError, match=error):
        written(tmp_path, file).of(of("GOOD", "PART1"), "100G", 0)


def test_what_is_no_file_of_settings_is_refused(tmp_path: pathlib.Path) -> None:
    with pytest.raises(ValueError, match="no object"):
        written(tmp_path, [])
    with pytest.raises(ValueError, match="^'all' is no port, and no range of ports$"):
        written(tmp_path, {"GLOBAL_MEDIA_SETTINGS": {"all": {}}}).of(of("GOOD", "PART1"), "100G", 0)
    for found in ([], {"0": []}, {"0": {"100G_SPEED": []}}):
        with pytest.raises(ValueError, match="no mapping"):
            written(tmp_path, {"GLOBAL_MEDIA_SETTINGS": found}).of(of("GOOD", "PART1"), "100G", 0)
    for identity, base in (("GOOD", (TARGET,) * 8), (of("GOOD", "PART1"), ({},) * 8)):
        with pytest.raises(TypeError):
            written(tmp_path, FILE).of(identity, "100G", 0, base)  # type: ignore[arg-type]
    for port, error in (
        (-1, ValueError),
        (2**32, ValueError),
        ("4", TypeError),
        (True, TypeError),
    ):
        with pytest.raises(error, match="the port is"):
            written(tmp_path, FILE).of(of("GOOD", "PART1"), "100G", port)  # type: ignore[arg-type]
    for count in (0, 7, 9):
        with pytest.raises(ValueError, match=f"{count} lanes, and not 8"):
            written(tmp_path, FILE).of(of("GOOD", "PART1"), "100G", 0, (TARGET,) * count)
    with pytest.raises(OSError):
        SignalSettings.from_file(tmp_path / "none.json")
