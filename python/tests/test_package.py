"""Images, plans, certificates and faults, against the program and the pages."""
from __future__ import annotations

import copy
import operator
import pathlib
import pickle
import random
import re
from typing import List

import pytest

from shared import (
    IMAGES,
    ROOT,
    WEIGHTS,
    cmisctl,
    example,
    fault_of,
    image_of,
    random_weights,
    table,
)
from dovecounter import (
    LOWER,
    ConfigStatus,
    DataPath,
    Delays,
    Effect,
    Fault,
    Hindrance,
    Image,
    Judgement,
    ModuleState,
    PathState,
    Operation,
    Provisioning,
    SimulatedModule,
    certificate,
    check,
    judge,
    page,
    plan,
    read_weights,
)
from dovecounter.faults import CODES, sentence_of

# what is planned here needn't be in use
pytestmark = pytest.mark.filterwarnings("ignore::dovecounter.KeptPathNotActive")

DR4 = example("qsfp_dd_400g_dr4.txt")


def apps(image: Image) -> List[str]:
    """What `cmisctl apps` prints."""
    try:
        found = image.advertisement()
    except Fault as fault:
        return [f"fault {fault}"]
    lines = [f"apps {len(found.applications)}"]
    for one in found.applications:
        usable = "usable" if 1 <= one.host_lanes <= 8 and 1 <= one.media_lanes <= 8 else "unusable"
        lines.append(
            f"app {one.number} host {one.host_id:02X}h media {one.media_id:02X}h host-lanes {one.host_lanes}"
            f" media-lanes {one.media_lanes} host-starts {one.host_starts:02X}h media-starts {one.media_starts:02X}h {usable}"
        )
    return [*lines, f"unsupported-media {found.unsupported:02X}h"]


@pytest.mark.parametrize("path", IMAGES, ids=operator.attrgetter("name"))
def test_what_an_image_advertises_and_its_plans_are_what_the_program_prints(
    path: pathlib.Path,
) -> None:
    image = image_of(path)
    assert image.to_text() == path.read_text().partition("---\n")[0]
    assert apps(image) == cmisctl("apps", image.to_text())
    if apps(image)[0].startswith("fault"):
        assert [f"fault {fault_of(plan, image, WEIGHTS)}"] == cmisctl(
            "plan", image.to_text(), table(WEIGHTS)
        )
        return
    chance = random.Random(3)
    for _ in range(10):
        weights = random_weights(chance, image)
        best = plan(image, weights)
        kept = [one for one in best.paths if chance.random() < 0.5]
        keeping = "".join(f"keep {one.application} {one.host} {one.media}\n" for one in kept)
        lines = cmisctl("plan --keep", image.to_text(), table(weights), keeping)
        best = plan(image, weights, list(reversed(kept)))
        assert lines[1] == f"weight {best.weight}"
        assert [line for line in lines if line.startswith("path")] == [
            f"path {one.application} {one.host} {one.media}" for one in best.paths
        ]
        text = certificate(image, weights, kept)
        assert text == "".join(f"{line}\n" for line in lines)
        assert check(image, weights, text) == Judgement(None, 0)
        told = cmisctl("check", image.to_text(), table(weights), text)
        assert told[-1] == f"control {best.control.hex(' ')}"


def test_a_module_that_pairs_first_lanes() -> None:
    apart = "\n".join(cmisctl("plan", DR4.to_text(), table(WEIGHTS)))
    paired = "\n".join(cmisctl("plan --paired", DR4.to_text(), table(WEIGHTS)))
    assert certificate(DR4, WEIGHTS, paired=True) == paired + "\n"
    assert check(DR4, WEIGHTS, apart) == check(DR4, WEIGHTS, paired, True) == Judgement(None, 0)
    assert check(DR4, WEIGHTS, paired) == check(DR4, WEIGHTS, apart, True) == Judgement("VR10", 0)
    kept = [DataPath(2, 3, 1)]
    assert kept[0] in plan(DR4, WEIGHTS, kept).paths
    for planned in (plan, certificate):
        assert str(fault_of(planned, DR4, WEIGHTS, kept, True)) == "KP3 1"


def test_a_module_that_leaves_lane_counts_to_interface_ids() -> None:
    image = DR4.changed(LOWER, 88, b"\0").changed(LOWER, 92, b"\0")
    assert plan(image, WEIGHTS).paths == ()
    assert plan(image, WEIGHTS, counts_by_id=True) == plan(DR4, WEIGHTS)
    assert [one.host_lanes for one in image.applications()] == [0, 0]
    assert image.applications(counts_by_id=True) == DR4.applications()
    text = certificate(image, WEIGHTS, counts_by_id=True)
    assert text.splitlines() == cmisctl("plan --counts-by-id", image.to_text(), table(WEIGHTS))
    assert check(image, WEIGHTS, text, counts_by_id=True) == Judgement(None, 0)
    assert check(image, WEIGHTS, text) == Judgement("VR1", 1)


def test_a_path_that_is_active_weighs_more() -> None:
    weights = {0x11: 405, 0x0D: 101}
    image = DR4.changed(page(0x11), 206, bytes([0x20, 0x20, 0x24, 0x24]))
    assert plan(image, weights) == plan(DR4, weights, stay=1)
    assert plan(image, weights).weight == 405
    staying = plan(image, weights, stay=1)
    assert (staying.weight, len(staying.paths)) == (406, 4)
    text = certificate(image, weights, stay=1)
    wanted = "stay = 1\n" + table(weights)
    assert text.splitlines() == cmisctl("plan --now", image.to_text(), wanted)
    assert check(image, weights, text, stay=1) == Judgement(None, 0)
    assert check(image, weights, text) == Judgement("VR3", 0)
    bare = image.without(page(0x11))
    assert plan(bare, weights) == plan(image, weights)
    for planned in (plan, certificate):
        assert str(fault_of(planned, bare, weights, (), False, False, 1)) == "AD4 upper A0 00 11"
    with pytest.raises(ValueError):
        plan(image, weights, stay=2**32)


def test_a_judgement_has_its_sentence() -> None:
    text = certificate(DR4, WEIGHTS)
    assert check(DR4, WEIGHTS, text).sentence == ""
    bad = check(DR4, WEIGHTS, text, paired=True)
    assert (bad.reason, bad.sentence) == ("VR10", sentence_of("VR10"))


def test_a_fault_has_the_program_s_values() -> None:
    images = [
        DR4.without(LOWER),
        DR4.without(page(0x00)),
        DR4.without(page(0x01)),
        DR4.changed(LOWER, 0, b"\x1e"),
        DR4.changed(LOWER, 0, b"\x0d"),
        DR4.changed(LOWER, 1, b"\x30"),
        DR4.changed(LOWER, 2, b"\x80"),
        DR4.changed(page(0x00), 130, b"\xff"),
        DR4.changed(page(0x01), 255, b"\x00"),
    ]
    for image in images:
        assert apps(image) == cmisctl("apps", image.to_text())
    for number in (0x10, 0x11):
        assert (
            fault_of(SimulatedModule, DR4.without(page(number))) == f"SM1 upper A0 00 {number:02x}"
        )
    assert fault_of(SimulatedModule, DR4, Delays(init=1001)) == "SM3"
    good, wrong = DataPath(2, 1, 1), DataPath(2, 2, 1)
    for kept in ([good, wrong], [wrong, good], [good, good], [good] * 9):
        lines = "".join(f"keep {one.application} {one.host} {one.media}\n" for one in kept)
        assert [f"fault {fault_of(plan, DR4, WEIGHTS, kept)}"] == cmisctl(
            "plan --keep", DR4.to_text(), table(WEIGHTS), lines
        )


def test_a_changed_certificate_is_judged_as_by_the_program() -> None:
    chance = random.Random(9)
    lines = cmisctl("plan", DR4.to_text(), table(WEIGHTS))
    found = set()
    for _ in range(300):
        changed, at = list(lines), chance.randrange(len(lines))
        another_digit = re.sub(r"\d(?!.*\d)", str(chance.randrange(10)), lines[at])
        changed[at : at + 1] = chance.choice(
            [[], [another_digit], [another_digit], [lines[at], lines[at - 1]], [lines[at] + " "]]
        )
        if chance.random() < 0.1:
            changed = changed[:at]
        text = "".join(line + "\n" for line in changed)
        try:
            judged = check(DR4, WEIGHTS, text)
            told = "good" if judged.is_good else f"bad {judged.reason} {judged.number}"
        except Fault as fault:
            told = f"fault {fault}"
        assert told == cmisctl("check", DR4.to_text(), table(WEIGHTS), text)[0]
        found.add(told.split(" ")[1] if " " in told else told)
    assert {"good", "CT1", "CT2", "CT4", "VR3", "VR5", "VR6"} <= found


def test_copies_go_their_own_way() -> None:
    module, procedure = SimulatedModule(DR4), Provisioning(plan(DR4, WEIGHTS))
    copies = copy.copy(module), copy.deepcopy(module), pickle.loads(pickle.dumps(module))
    left = copy.copy(procedure)
    procedure.run(module.transact, lambda _: None)
    assert module.active != DR4.halves[page(0x11)][206 - 128 : 214 - 128]
    for each in copies:
        assert each.active == DR4.halves[page(0x11)][206 - 128 : 214 - 128]
        Provisioning(plan(DR4, WEIGHTS)).run(each.transact, lambda _: None)
        assert each.active == module.active
    assert left.steps is None and next(left) == Operation(0xA0, 3, 1, None)
    assert list(procedure) == []


def test_weights_are_read_from_lines() -> None:
    assert read_weights("# what for\n[host]\n0dh = 101 # DR1\n\n11h=400\n12h = 0") == {
        0x0D: 101,
        0x11: 400,
    }
    assert read_weights(table(WEIGHTS)) == {
        host_id: weight for host_id, weight in WEIGHTS.items() if weight
    }
    refused: tuple[tuple[str | bytes, str], ...] = (
        ("", ""),
        ("0Dh = 1\n[host]\n", "line 1: "),
        (b"[host]\n\n#\xff\n", "line 3: "),
        ("[host]\n0Dh = 1\n0dh = 1\n", "line 3: "),
    )
    for text, place in refused:
        with pytest.raises(ValueError, match=f"^{place}[a-z]"):
            read_weights(text)


def test_sentences_are_those_of_the_page() -> None:
    rows = dict(
        re.findall(
            r"^\| `(\w+)`[^|]* \| ([^|]*) \|",
            (ROOT / "docs/tables/faults.md").read_text(),
            re.MULTILINE,
        )
    )
    numbered = [("IM", 6), ("PV", 7), ("VR", 10)]
    codes = {f"{kind}{number}" for kind, most in numbered for number in range(1, most + 1)}
    codes |= set(CODES.values())
    assert {code: sentence_of(code) for code in codes} == {code: rows[code] for code in codes}
    fault = Fault("PV1", 3, 5)
    for same in (pickle.loads(pickle.dumps(fault)), copy.copy(fault)):
        assert (str(same), same.code, same.values, same.sentence) == (
            "PV1 3 5",
            "PV1",
            (3, 5),
            rows["PV1"],
        )


def test_states_are_those_of_the_page() -> None:
    rows = re.findall(r"^\| (\d+) \| (\w+) \|", (ROOT / "docs/states.md").read_text(), re.MULTILINE)
    named = [
        (state.value, state.name)
        for states in (ModuleState, PathState, ConfigStatus)
        for state in states
    ]
    assert sorted(named) == sorted(
        (int(code), name) for code, name in rows if not name.startswith("custom")
    )


def test_a_change_is_judged_before_it_is_made() -> None:
    image = example("add_800g_dr8.txt")  # all lanes are DPActivated, 8 1 1 and 8 3 2 active
    weights = {0x4F: 400, 0x0D: 100}
    free = plan(image, weights)
    assert judge(image, free).hindrance == Hindrance.WOULD_GO_DOWN
    hindered = judge(image, free, may_take_down=0xFE)
    assert hindered.lanes == 0x01 and hindered.state is None
    unhindered = (False, False, Hindrance.UNHINDERED, 0, None)
    assert judge(image, free, may_take_down=0xFF) == Effect(0xFF, 0xFF, 0, 0, *unhindered)
    best = plan(image, weights, [DataPath(8, 1, 1), DataPath(8, 3, 2)])
    assert judge(image, best).lanes == 0xF0
    assert judge(image, best, may_take_down=0xF0) == Effect(0xF0, 0xF0, 0, 0x0F, *unhindered)
    assert judge(image, plan(image, {})).hindrance == Hindrance.NO_PATH
    assert judge(image, plan(image, {}), may_have_no_path=True).goes_down == 0xFF
    halves = dict(image.halves)
    del halves[page(0x11)]
    assert fault_of(judge, Image(halves), best) == "AD4 upper A0 00 11"
    of_lower = Image({LOWER: image.halves[LOWER]})
    assert fault_of(judge, of_lower, best) == "AD4 upper A0 00 11"


def test_a_change_is_judged_by_what_is_asked() -> None:
    best = plan(DR4, WEIGHTS)
    module = SimulatedModule(DR4, Delays(1, 1, 1, 1, 1, 1, 1))

    def memory(state: int, path_states: int, active: bytes) -> Image:
        lower, lanes = bytearray(DR4.halves[LOWER]), bytearray(DR4.halves[page(0x11)])
        lower[3] = state << 1
        lanes[:4] = bytes([path_states * 0x11] * 4)
        lanes[206 - 128 : 214 - 128] = active
        return Image({**DR4.halves, LOWER: bytes(lower), page(0x11): bytes(lanes)})

    assert module.active != best.control
    asleep = memory(1, 1, bytes(8))
    assert judge(asleep, best).state == ModuleState.ModuleLowPwr
    assert judge(asleep, best, wakes=True).hindrance == Hindrance.UNHINDERED
    assert judge(memory(6, 1, bytes(8)), best).state == 6
    up = memory(3, 4, best.control)
    assert judge(up, best, activates=True).is_done and judge(up, best).is_active
    assert not judge(memory(3, 1, best.control), best, activates=True).is_done
    half_up = memory(3, 4, best.control[:4] + bytes(4))
    assert judge(half_up, best).taken == 0xFF
    assert judge(half_up, best, spares=True).taken == 0xF0
    kept = plan(DR4, WEIGHTS, best.paths[:1])
    down = memory(3, 1, best.control[:4] + bytes(4))
    assert judge(down, kept).hindrance == Hindrance.WOULD_COME_UP
    assert judge(down, kept).lanes == 0x03
    brought_up = judge(down, kept, may_bring_up=0x03)
    assert brought_up.hindrance == Hindrance.UNHINDERED and brought_up.goes_down == 0
    assert (brought_up.comes_up, brought_up.stays) == (0x03, 0)
    assert judge(memory(3, 1, bytes(8)), kept).hindrance == Hindrance.OTHER_BYTES
