"""Details and metrics of a module against what the program prints of it."""
from __future__ import annotations

import ctypes
import json
import operator
import pathlib
import pickle
import random
from typing import Any, Callable, Dict, List

import pytest

from shared import IMAGES, cmisctl, example, image_by_chance, image_of
from dovecounter import LOWER, Details, Fault, Image, Key, library, page
from dovecounter.details import details_of

DR4 = example("qsfp_dd_400g_dr4.txt")


def printed(image: Image) -> Dict[str, Any]:
    """What `cmisctl details --json` prints, without its first member."""
    said: Dict[str, Any] = json.loads("\n".join(cmisctl("details --json", image.to_text())))
    assert said.pop("dovecounter") == 1
    return said


def compare(image: Image) -> bool:
    """Compares details and metrics; whether there are details."""
    for words, all_flags in (("", False), (" --flags all", True)):
        lines = cmisctl(f"metrics{words}", image.to_text())
        assert image.metrics(all_flags).splitlines() == lines
    try:
        found = image.details()
    except Fault as fault:
        assert [f"fault {fault}"] == cmisctl("details", image.to_text())
        assert printed(image)["fault"]["sentence"] == fault.sentence
        return False
    assert found.to_dict() == printed(image)
    assert list(found) == list(printed(image))
    return True


@pytest.mark.parametrize("path", IMAGES, ids=operator.attrgetter("name"))
def test_an_image_has_the_details_and_metrics_that_the_program_prints(path: pathlib.Path) -> None:
    compare(image_of(path))


def test_images_by_chance() -> None:
    chance = random.Random(7)
    told = [compare(image_by_chance(chance)) for _ in range(150)]
    assert 30 < sum(told) < 150


def test_the_lanes_of_a_further_bank_are_there_too() -> None:
    two = DR4.changed(page(0x01), 142, b"\x01")
    banks = Image({**two.halves, page(0x11, bank=1): two.halves[page(0x11)]})
    assert compare(banks)
    found = banks.details()
    assert found["path_state_lane_16"] == found["path_state_lane_8"]
    assert "path_state_lane_17" not in found and "path_state_lane_9" not in two.details()
    assert 'dovecounter_lane_tx_power_watts{lane="16"}' in banks.metrics()


def test_what_a_module_lists_itself_is_there_too() -> None:
    found = example("osfp_800g_vdm.txt").details()
    assert found["vdm_tec_current_share_now_module_instance_1_percent"] == -19.999
    assert found["vdm_pre_fec_ber_average_media_path_5_instance_48_ratio"] == 1.27e-4
    assert not [name for name in DR4.details() if name.startswith("vdm_")]


def test_members_are_numbers_words_and_names() -> None:
    found = DR4.details()
    assert (found["family"], found["memory"], found["connector"]) == ("CMIS", "paged", 0x0C)
    assert found["connector_name"] == DR4.inventory().connector_name == "MPO 1x12"
    assert found["temperature_c"] == DR4.monitors().temperature.celsius
    assert "fibre" not in found and found.get("fibre") is None
    assert len(found) == len(list(found)) > 100
    lists = [value for value in found.values() if isinstance(value, tuple)]
    assert all(isinstance(name, str) for names in lists for name in names)
    qsfp = example("qsfp28_100g_sr4.txt").details()
    names = [value for value in qsfp.values() if isinstance(value, tuple)]
    assert names and json.loads(json.dumps(qsfp.to_dict()))["ethernet"] == list(names[0])


def test_details_are_a_mapping_that_notebooks_show() -> None:
    found = DR4.details()
    assert found == DR4.details() and found != DR4.changed(LOWER, 14, b"\0").details()
    assert pickle.loads(pickle.dumps(found)) == found
    assert repr(Details({"family": "CMIS"})) == "Details({'family': 'CMIS'})"
    assert len(Details({"family": "CMIS"})) == 1
    members: Dict[str, Any] = {"family": "CMIS"}
    of_members = Details(members)
    members["family"] = "SFF-8636"
    assert of_members["family"] == "CMIS"
    assert "<th>connector name</th><td>MPO 1x12</td>" in found._repr_html_()
    with pytest.raises(KeyError):
        found["fibre"]


def test_a_fault_has_its_values() -> None:
    faults: List[Callable[[], object]] = [
        Image({}).details,
        DR4.changed(LOWER, 0, b"\x77").details,
        DR4.changed(LOWER, 1, b"\x60").details,
        DR4.without(page(0x11)).details,
        example("qsfp28_100g_sr4.txt").without(page(0x00)).details,
        example("sfp_10g_lr.txt").without(Key(0xA2)).details,
    ]
    raised = []
    for call in faults:
        with pytest.raises(Fault) as fault:
            call()
        raised.append((fault.value.code, fault.value.values))
    assert raised == [
        ("RP6", ("lower A0",)),
        ("RP1", (0x77,)),
        ("RP4", (0x60,)),
        ("RP6", ("upper A0 00 11",)),
        ("SF3", ("upper A0 00 00",)),
        ("RP6", ("lower A2",)),
    ]


def test_metrics_have_the_faults_of_reports() -> None:
    assert 'dovecounter_fault{code="RP6"} 1\n' in Image({}).metrics()
    assert "dovecounter_fault" not in DR4.metrics()
    with pytest.raises(TypeError):
        DR4.metrics(1)  # type: ignore[arg-type]


def test_a_report_that_is_longer_than_the_first_buffer(monkeypatch: pytest.MonkeyPatch) -> None:
    whole = DR4.details(), DR4.metrics()
    for size in (0, 1, len(DR4.metrics()) - 1, len(DR4.metrics())):
        monkeypatch.setattr(library, "_REPORT_SIZE", size)
        assert (DR4.details(), DR4.metrics()) == whole
        with pytest.raises(Fault, match="RP6 lower A0"):
            Image({}).details()


def test_what_the_library_never_answers_is_said(monkeypatch: pytest.MonkeyPatch) -> None:
    def answers(status: int) -> Callable[..., Callable[..., int]]:
        def call(*arguments: Any) -> int:
            arguments[-1]._obj.value = 0
            return status

        return lambda name: call

    monkeypatch.setattr(library, "function", answers(6))
    with pytest.raises(MemoryError, match="no memory for the details"):
        DR4.details()
    monkeypatch.setattr(library, "function", answers(77))
    with pytest.raises(AssertionError, match="status 77"):
        DR4.metrics()
    with pytest.raises(AssertionError, match="another form"):
        details_of(b'{"dovecounter": 2, "family": "CMIS"}')
    with pytest.raises(AssertionError, match="another form"):
        details_of(b'{"family": "CMIS"}')


def test_calls_of_c_write_nothing_beyond_their_texts() -> None:
    """The bytes of a buffer that is too small stay, and those after a text."""
    text, length = DR4.to_text().encode(), ctypes.c_size_t(7)
    wanted = DR4.metrics().encode()
    for size in (0, len(wanted) - 1, len(wanted), len(wanted) + 9):
        buffer = (ctypes.c_uint8 * (size + 1))(*[0x5A] * (size + 1))
        call = library.function("metrics")
        status = call(text, len(text), 0, buffer, size, ctypes.byref(length))
        assert length.value == len(wanted)
        has_room = size >= len(wanted)
        assert status == (0 if has_room else 4)
        assert bytes(buffer) == (wanted if has_room else b"").ljust(size + 1, b"\x5a")
    line = b"fault IM2 2\n"
    buffer = (ctypes.c_uint8 * 20)()
    status = library.function("details")(text, 100, buffer, 20, ctypes.byref(length))
    assert (status, bytes(buffer[: length.value])) == (5, line)
