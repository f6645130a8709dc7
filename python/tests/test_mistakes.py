"""What the package refuses, and how its objects look."""
from __future__ import annotations

import array
import copy
import dataclasses
import os
import pathlib
import pickle
import shutil
import subprocess
import sys
import warnings
from typing import Any, Callable, List, Tuple

import pytest

from shared import ROOT, WEIGHTS, example, fault_of
from dovecounter import (
    LOWER,
    Activation,
    DataPath,
    Delays,
    FirmwareFailure,
    FirmwareFault,
    FirmwareKnown,
    Image,
    Key,
    KeptPathNotActive,
    LaneEnd,
    LaneFault,
    LaneOutcome,
    LinkChange,
    LinkEnd,
    LinkFault,
    LinkOutcome,
    Operation,
    Plan,
    Provisioning,
    Patience,
    Reading,
    SettingsEnd,
    SettingsFault,
    SettingsOutcome,
    SettingsReach,
    SimulatedModule,
    Sleeping,
    VdmEnd,
    VdmFault,
    VdmReading,
    VdmRelease,
    VdmStatistics,
    Wait,
    Waking,
    certificate,
    check,
    judge,
    library,
    page,
    plan,
    read_weights,
)

DR4 = example("qsfp_dd_400g_dr4.txt")


def test_numbers_out_of_range_are_refused_and_not_cut() -> None:
    module, best = SimulatedModule(DR4), plan(DR4, WEIGHTS)

    def changed(**members: Any) -> Plan:
        return Plan(**{**vars(best), **members})

    for call in (
        lambda: plan(DR4, {0x111: 1}),
        lambda: plan(DR4, {256: 1}),
        lambda: plan(DR4, {-1: 1}),
        lambda: plan(DR4, {0x11: 2**32}),
        lambda: plan(DR4, {0x11: -1}),
        lambda: plan(DR4, WEIGHTS, [DataPath(256, 1, 1)]),
        lambda: plan(DR4, WEIGHTS, [DataPath(258, 1, 1)]),
        lambda: plan(DR4, WEIGHTS, [DataPath(2, 257, 1)]),
        lambda: plan(DR4, WEIGHTS, [DataPath(2, 1, -255)]),
        lambda: check(DR4, {0x11: 2**32}, ""),
        lambda: certificate(DR4, WEIGHTS, stay=2**32),
        lambda: SimulatedModule(DR4, Delays(init=65537)),
        lambda: SimulatedModule(DR4, Delays(apply=-1)),
        lambda: module.fetch(0x1A0, 0, 1),
        lambda: module.fetch(0xA0, 256, 1),
        lambda: module.fetch(0xA0, 0, 0),
        lambda: module.fetch(0xA0, 0, 129),
        lambda: module.fetch(0xA0, 120, 9),
        lambda: module.fetch(0xA1, 0, 1),
        lambda: module.store(0xA0, 0, bytes(9)),
        lambda: module.store(0xA0, 0, b""),
        lambda: module.store(0x1A0, 0, b"1"),
        lambda: module.store(0xA0, 256 + 26, b"1"),
        lambda: module.tick(-1),
        lambda: Reading(7),
        lambda: VdmReading(bank=-1),
        lambda: VdmReading(bank=256),
        lambda: Waking(Patience(pause=-1)),
        lambda: Waking(Patience(pause=2**32)),
        lambda: Waking(Patience(limit=-1)),
        lambda: Waking(Patience(limit=2**32)),
        lambda: Reading(256),
        lambda: Reading(256 + 8),
        lambda: Provisioning(changed(outside=256)),
        lambda: Provisioning(changed(control=bytes(9))),
        lambda: Activation(changed(lanes=-1)),
        lambda: Image({LOWER: bytes(127)}),
        lambda: Key(0xA1),
        lambda: Key(0xA0, page=1),
        lambda: Key(0xA0, bank=1),
        lambda: page(256),
        lambda: page(-1),
        lambda: page(0, bank=256),
        lambda: page(0, bank=-1),
        lambda: Image({page(number): bytes(128) for number in range(65)}),
    ):
        pytest.raises(ValueError, call)
    for call in (
        lambda: plan(DR4, {0x11: 1.5}),  # type: ignore[dict-item]
        lambda: plan(DR4, {"11h": 1}),  # type: ignore[dict-item]
        lambda: Provisioning(changed(control="12345678")),
        lambda: module.fetch(0xA0, 0, None),  # type: ignore[arg-type]
        lambda: module.store(0xA0, 26, array.array("H", [1, 2])),  # type: ignore[arg-type]
        lambda: plan(DR4, WEIGHTS, paired=256),  # type: ignore[arg-type]
        lambda: plan(DR4, WEIGHTS, counts_by_id=None),  # type: ignore[arg-type]
        lambda: plan(DR4, WEIGHTS, [(2, 1, 1)]),  # type: ignore[list-item]
        lambda: check(DR4, WEIGHTS, "", paired=256),  # type: ignore[arg-type]
        lambda: certificate(DR4, WEIGHTS, paired=256),  # type: ignore[arg-type]
        lambda: check(DR4, WEIGHTS, pathlib.Path("x")),  # type: ignore[arg-type]
        lambda: DR4.advertisement(256),  # type: ignore[arg-type]
        lambda: read_weights(pathlib.Path("x")),  # type: ignore[arg-type]
        lambda: Image.from_text(None),  # type: ignore[arg-type]
        lambda: Key(0xA0, 0x11),  # type: ignore[arg-type]
        lambda: plan(DR4, {True: 1}),
        lambda: plan(DR4, {0x11: True}),
        lambda: plan(DR4, WEIGHTS, [DataPath(2, True, 1)]),
        lambda: module.tick(True),
        lambda: Reading(True),
        lambda: Reading(8, 100),  # type: ignore[arg-type]
        lambda: Reading(requested=8),  # type: ignore[arg-type]
        lambda: Waking(Patience(pause=1.5)),  # type: ignore[arg-type]
        lambda: Waking(Patience(limit=None)),  # type: ignore[arg-type]
        lambda: Sleeping(Patience(trusts=256)),  # type: ignore[arg-type]
        lambda: Provisioning(best, 0.1),  # type: ignore[arg-type]
        lambda: Activation(best, None),  # type: ignore[arg-type]
        lambda: Waking(100),  # type: ignore[arg-type]
        lambda: Sleeping(lambda: None),  # type: ignore[arg-type]
        lambda: plan(DR4, WEIGHTS, paired=1),  # type: ignore[arg-type]
        lambda: check(DR4, WEIGHTS, "", counts_by_id=0),  # type: ignore[arg-type]
        lambda: DR4.applications(1),  # type: ignore[arg-type]
    ):
        pytest.raises(TypeError, call)


def test_the_greatest_numbers_are_taken() -> None:
    module, best = SimulatedModule(DR4, Delays(*[1000] * 7)), plan(DR4, WEIGHTS)
    assert module.store(0xA0, 126, b"\0\x10") and module.store(0xA0, 248, bytes(8))
    upper, last = module.fetch(0xA0, 128, 128), module.fetch(0xA0, 255, 1)
    assert upper is not None and upper[-8:] == bytes(8) and last == b"\0"
    assert fault_of(SimulatedModule, DR4, Delays(init=1001)) == "SM3"
    assert fault_of(plan, DR4, WEIGHTS, [DataPath(255, 255, 255)]) == "KP3 1"
    assert plan(DR4, {0x11: 2**32 - 1}, stay=2**32 - 1).weight == 2**32 - 1
    for procedure in (
        Reading(255, Patience(2**32 - 1, 2**32 - 1)),
        VdmReading(bank=255),
        Provisioning(dataclasses.replace(best, outside=255)),
        Activation(dataclasses.replace(best, lanes=255)),
    ):
        assert isinstance(next(procedure), Operation)
    effect = judge(DR4, best, may_take_down=255, may_bring_up=255)
    assert effect == judge(DR4, best)


def test_values_of_the_wrong_type_are_refused_where_they_come_in() -> None:
    half = bytes(128)
    refused: Tuple[Tuple[Callable[[], object], str], ...] = (
        (lambda: plan(DR4, [1, 2]), "the weights are"),  # type: ignore[arg-type]
        (lambda: check(DR4, None, ""), "the weights are"),  # type: ignore[arg-type]
        (lambda: plan(DR4.to_text(), WEIGHTS), "the image is"),  # type: ignore[arg-type]
        (lambda: check("x", WEIGHTS, ""), "the image is"),  # type: ignore[arg-type]
        (lambda: Provisioning("x"), "the plan is 'x', and no Plan"),  # type: ignore[arg-type]
        (lambda: Activation(None), "the plan is None, and no Plan"),  # type: ignore[arg-type]
        (lambda: SimulatedModule("x"), "the image is"),  # type: ignore[arg-type]
        (lambda: SimulatedModule(DR4, 4), "the record of delays is 4"),  # type: ignore[arg-type]
        (lambda: Image({None: half}), "the key of a half is None"),  # type: ignore[dict-item]
        (lambda: Image({0x11: half}), "the key of a half is 17"),  # type: ignore[dict-item]
        (lambda: Image([half]), "the halves are"),  # type: ignore[arg-type]
        (lambda: Image({LOWER: "x" * 128}), "lower A0 are"),  # type: ignore[dict-item]
        (lambda: Image.from_dump("/nonexistent"), "the dump is"),  # type: ignore[arg-type]
        (lambda: Image.from_dump(ROOT), "the dump is"),  # type: ignore[arg-type]
    )
    for call, told in refused:
        with pytest.raises(TypeError, match=f"^{told}"):
            call()
    assert Image.from_dump(bytearray(b"\x03" + bytes(127))).halves == {LOWER: b"\x03" + bytes(127)}


def test_texts_may_be_bytes_that_change() -> None:
    text = "[host]\n0Dh = 1\n"
    assert read_weights(bytearray(text.encode())) == read_weights(text) == {0x0D: 1}
    assert Image.from_text(bytearray(DR4.to_text().encode())) == DR4
    module, best = SimulatedModule(DR4), plan(DR4, WEIGHTS)
    assert module.store(0xA0, 26, bytearray(b"\x10")) and module.fetch(0xA0, 26, 1) == b"\x10"
    of_array = dataclasses.replace(best, control=bytearray(best.control))
    assert judge(DR4, of_array) == judge(DR4, best)


def import_over(file: pathlib.Path) -> "subprocess.CompletedProcess[str]":
    return subprocess.run(
        [sys.executable, "-c", "import dovecounter"],
        capture_output=True,
        text=True,
        check=False,
        env={**os.environ, "PYTHONPATH": str(ROOT / "python"), "DOVECOUNTER_LIBRARY": str(file)},
    )


def imported(file: pathlib.Path) -> List[str]:
    """What Python says when it imports the package over a library that it refuses."""
    run = import_over(file)
    assert run.returncode == 1
    return run.stderr.splitlines()


def test_a_library_may_be_named_by_a_link(tmp_path: pathlib.Path) -> None:
    link = tmp_path / "libdovecounter.so"
    link.symlink_to(pathlib.Path(library._SHARED._name).resolve())
    run = import_over(link)
    assert (run.returncode, run.stderr) == (0, "")


def test_a_library_of_another_version_or_none_is_refused_with_a_sentence(
    tmp_path: pathlib.Path,
) -> None:
    file = tmp_path / library.FILE
    told, what_to_do = imported(file)[-1], (
        "build the library by tools/build-shared-library, install it by tools/install, or name its"
        " file in DOVECOUNTER_LIBRARY"
    )
    assert told.startswith("ImportError: ") and told.endswith(f": {what_to_do}")
    other = tmp_path / "libdovecounter.so"
    assert imported(other)[-1].startswith("ImportError: ")
    shutil.copy(library._SHARED._name, other)
    needed = f"DOVECOUNTER_LIBRARY names {other}, and this package needs {library.FILE}"
    assert imported(other)[-1] == f"ImportError: {needed}"
    compiler = os.environ.get("CC", "cc")
    if shutil.which(compiler) is None:
        pytest.skip("there is no C compiler")
    source = tmp_path / "other.c"
    source.write_text("int dovecounter_status_text(void) { return 0; }\n")
    subprocess.run([compiler, "-shared", "-fPIC", "-o", file, source], check=True)
    told = imported(file)[-1]
    assert told.startswith(f"ImportError: {file} has no dovecounter_")
    assert "of another version" in told


def test_a_kept_path_that_is_not_active_is_warned_of() -> None:
    image = DR4.changed(page(0x11), 206, bytes.fromhex("20 20 24 24 28 28 2c 2c"))
    active, other = DataPath(2, 3, 2), DataPath(2, 5, 1)
    with warnings.catch_warnings():
        warnings.simplefilter("error")
        assert active in plan(image, WEIGHTS, [active]).paths
        assert plan(image.without(page(0x11)), WEIGHTS, [other])
        assert other in plan(image, WEIGHTS, [other]).paths
    for active_bytes in ("20 20 24 24 00 00 2c 2c", "20 20 24 24 29 29 2c 2c", "10 " * 8):
        image = DR4.changed(page(0x11), 206, bytes.fromhex(active_bytes))
        with pytest.warns(KeptPathNotActive) as told:
            best = plan(image, WEIGHTS, [other, DataPath(2, 1, 3)])
        named = [str(one.message).partition(" is to be")[0] for one in told]
        assert named == [str(other), str(DataPath(2, 1, 3))][: 1 + (active_bytes[:2] == "10")]
        assert told[0].filename == __file__
        fault = fault_of(Provisioning(best).run, SimulatedModule(image).transact, lambda _: None)
        assert fault[:3] in ("PV1", "PV3")
    for active_bytes in ("20 20 24 24 28 00 2c 2c", "20 20 24 24 00 28 2c 2c"):
        image = DR4.changed(page(0x11), 206, bytes.fromhex(active_bytes))
        with pytest.warns(KeptPathNotActive) as told:
            plan(image, WEIGHTS, [DataPath(2, 1, 3), other])
        assert [str(one.message).partition(" is to be")[0] for one in told] == [str(other)]


@pytest.mark.parametrize(
    "fault",
    [
        FirmwareFault(FirmwareFailure.REFUSED, 0x46, FirmwareKnown.BEGUN),
        LaneFault(LaneEnd(LaneOutcome.NOT_PERMITTED, 1, 2, 3)),
        LinkFault(LinkEnd(LinkOutcome.TESTED, 4, (LinkChange(180, 1, 0),))),
        SettingsFault(SettingsEnd(SettingsOutcome.NOT_UP, 1, SettingsReach.NOTHING)),
        VdmFault(VdmEnd(VdmStatistics.PENDING, VdmRelease.ACCEPTED, (0x28,), 3)),
    ],
    ids=lambda it: type(it).__name__,
)
def test_a_fault_is_copied_and_pickled(fault: Exception) -> None:
    for same in (copy.copy(fault), pickle.loads(pickle.dumps(fault))):
        assert type(same) is type(fault)
        assert (vars(same), str(same)) == (vars(fault), str(fault))


def test_objects_show_what_they_are() -> None:
    best, module = plan(DR4, WEIGHTS), SimulatedModule(DR4)
    operation = Operation(0xA0, 126, 2, b"\x00\x10")
    shown = "Operation(device=0xA0, offset=0x7E, count=2, data=bytes.fromhex('00 10'))"
    assert repr(operation) == shown and eval(shown) == operation
    fetch = Operation(0xA0, 3, 1, None)
    assert eval(repr(fetch)) == fetch and "data=None)" in repr(fetch)
    assert repr(Wait(3)) == "Wait(milliseconds=3)"
    provisioning, control = Provisioning(best), best.control.hex(" ")
    assert repr(provisioning) == f"<Provisioning of {control} after 0 operations>"
    provisioning.run(module.transact, lambda _: None)
    assert provisioning.steps
    made = f"after {provisioning.steps} operations>"
    assert repr(provisioning) == f"<Provisioning of {control} {made}"
    assert repr(Activation(best)) == f"<Activation of {control} after 0 operations>"
    waking, reading = Waking(), Reading()
    for procedure in (waking, reading):
        first = next(procedure)
        assert isinstance(first, Operation)
        procedure.reply(module.transact(first))
    assert repr(waking) == "<Waking after 1 operations>"
    assert repr(reading) == "<Reading after 1 operations>"
    lanes = " ".join(["DPDeactivated"] * 8)
    assert repr(module) == f"<SimulatedModule in ModuleReady, active {control}, lanes {lanes}>"


def test_a_plan_s_members_are_looked_at() -> None:
    best = plan(DR4, WEIGHTS)

    def changed(**members: Any) -> Plan:
        return Plan(**{**vars(best), **members})

    pytest.raises(TypeError, lambda: judge(DR4, changed(control=[0] * 8)))
    pytest.raises(TypeError, lambda: judge(DR4, changed(lanes=None)))
    pytest.raises(ValueError, lambda: judge(DR4, changed(outside=256)))
    pytest.raises(ValueError, lambda: judge(DR4, changed(lanes=256)))
    pytest.raises(ValueError, lambda: judge(DR4, best, may_take_down=256))
    pytest.raises(ValueError, lambda: judge(DR4, best, may_bring_up=-1))
    for choice in ("activates", "wakes", "spares", "may_have_no_path"):
        with pytest.raises(TypeError, match=f"^{choice} is 1, and neither"):
            judge(DR4, best, **{choice: 1})  # type: ignore[arg-type]
    pytest.raises(TypeError, lambda: judge(best, best))  # type: ignore[arg-type]
    pytest.raises(TypeError, lambda: judge(DR4, DR4))  # type: ignore[arg-type]
    pytest.raises(TypeError, lambda: Activation(changed(control=[0] * 8)))
    pytest.raises(TypeError, lambda: Activation(changed(lanes=None)))


def test_it_is_said_what_is_wrong() -> None:
    with pytest.raises(ValueError, match="^2 bytes from 127 on are not in lower A0$"):
        DR4.changed(LOWER, 127, b"12")
    with pytest.raises(ValueError, match="^lower A0 are 127 bytes, and not 128$"):
        Image({LOWER: bytes(127)})
    fault = FirmwareFault(FirmwareFailure.REFUSED, 5, None)
    assert str(fault) == "refused with status 05h"


def test_a_kept_path_is_compared_up_to_lane_8() -> None:
    best = plan(DR4, WEIGHTS)
    image = DR4.changed(page(0x11), 206, best.control[:7] + b"\0")
    with pytest.warns(KeptPathNotActive) as told:
        plan(image, WEIGHTS, [best.paths[-1]])
    assert [it.filename for it in told] == [__file__]
    dr8, first = example("osfp_800g_dr8.txt"), DataPath(5, 1, 1)
    control = plan(dr8.without(page(0x11)), {0x4B: 1}, [first]).control
    with warnings.catch_warnings():
        warnings.simplefilter("error")
        plan(dr8.changed(page(0x11), 206, control[:1] + bytes(7)), {0x4B: 1}, [first])
