"""Images from texts, dumps and ports, against the program and tools/module-image."""
from __future__ import annotations

import operator
import os
import pathlib
import subprocess
import sys
from typing import Iterable, List

import pytest

from shared import IMAGES, ROOT, WEIGHTS, cmisctl, example, fault_of, image_of
from dovecounter import LOWER, Image, Key, SimulatedModule, page, plan

DR4 = example("qsfp_dd_400g_dr4.txt")


def text_of_pages(version: int, numbers: Iterable[int], *more: str) -> str:
    """The text of an image of these pages, and of more lines after them."""
    pages = (f"upper A0 00 {number:02x} {'0' * 256}" for number in numbers)
    return "\n".join([f"module-image {version}", *pages, *more, "end", ""])


def test_texts_that_are_no_image() -> None:
    lines = DR4.to_text().splitlines()
    texts = [
        "",
        "x\n",
        "module-image 1\nx\n",
        "module-image 2\nx\n",
        "module-image 2\n",
        "module-image 3\nend\n",
        "\n".join(lines[:-1]),
        "\n".join([*lines, ""]) + "\n",
        "\n".join([*lines[:3], lines[1]]),
        text_of_pages(1, range(17)),
        text_of_pages(2, range(65)),
        text_of_pages(1, [*range(16), 15]),
        text_of_pages(2, [*range(64), 63]),
        text_of_pages(1, range(16), "x"),
        text_of_pages(2, range(64), "x"),
        DR4.to_text().upper(),
        DR4.to_text().replace("\n", "\r\n"),
        "module-image 1\n\udcff\n",
    ]
    for text in texts:
        if "\udcff" not in text:
            assert [f"fault {fault_of(Image.from_text, text)}"] == cmisctl("inventory", text)
        else:
            assert fault_of(Image.from_text, text) == "IM2 2"
    assert fault_of(Image.from_text, "module-image\udcff1\nend\n") == "IM1"
    assert fault_of(Image.from_text, text_of_pages(1, range(17))) == "IM4"
    assert fault_of(Image.from_text, text_of_pages(2, range(65))) == "IM7"
    assert Image.from_text(DR4.to_text().rstrip("\n")) == DR4


def test_an_image_is_written_in_the_first_version_that_has_room_for_it() -> None:
    for count in (1, 16, 17, 64):
        text = text_of_pages(1 if count <= 16 else 2, range(count))
        image = Image({page(number): bytes(128) for number in range(count)})
        assert image.to_text() == text and Image.from_text(text) == image
        assert Image.from_text(text.replace("image 1", "image 2")) == image
    places = [(device, bank) for device in (0xA0, 0xA2) for bank in (0, 1, 0xFE)]
    wide = Image({page(0x1F, bank, device): bytes([bank]) * 128 for device, bank in places})
    assert Image.from_text(wide.to_text()) == wide and len(wide.halves) == 6
    with pytest.raises(ValueError, match="there are 65 halves, and an image has at most 64"):
        Image({page(number): bytes(128) for number in range(65)})


def test_what_an_image_says_is_in_few_of_its_halves() -> None:
    others = {page(number, bank=1): bytes(128) for number in range(64 - len(DR4.halves))}
    image = Image({**DR4.halves, **others})
    assert len(image.halves) == 64
    assert image.applications() == DR4.applications()
    assert (image.inventory(), image.flags()) == (DR4.inventory(), DR4.flags())
    assert (image.monitors(), image.observables()) == (DR4.monitors(), DR4.observables())
    assert image.details() == DR4.details() and image.metrics() == DR4.metrics()
    assert image.signal_settings() == DR4.signal_settings()
    assert plan(image, WEIGHTS) == plan(DR4, WEIGHTS)


@pytest.mark.parametrize("path", IMAGES, ids=operator.attrgetter("name"))
def test_a_dump_and_a_port_give_the_image(path: pathlib.Path, tmp_path: pathlib.Path) -> None:
    tool = [sys.executable, str(ROOT / "tools/module-image")]
    text = image_of(path).to_text()
    dump = subprocess.run(
        [*tool, "--binary"], input=text.encode(), capture_output=True, check=True
    ).stdout
    file = tmp_path / "eeprom"
    file.write_bytes(dump)
    by_tool = subprocess.run([*tool, str(file)], capture_output=True, text=True, check=True).stdout
    assert Image.from_dump(dump).to_text() == by_tool
    assert Image.from_port(file).to_text() == by_tool
    for count in range(128, len(dump), 128):
        file.write_bytes(dump[:count])
        by_tool = subprocess.run(
            [*tool, str(file)], capture_output=True, text=True, check=True
        ).stdout
        assert Image.from_dump(dump[:count]).to_text() == by_tool


def test_dumps_that_are_none() -> None:
    for dump in (b"", bytes(127), bytes(128), b"\x18" * 200):
        pytest.raises(ValueError, Image.from_dump, dump)
    pytest.raises(OSError, Image.from_port, ROOT / "no such file")


def test_a_dump_of_any_module_of_cmis_is_read() -> None:
    lower = DR4.halves[LOWER]
    for identifier in (0x18, 0x19, 0x1B, *range(0x1E, 0x26)):
        dump = bytes([identifier]) + lower[1:] + bytes(128)
        assert Image.from_dump(dump).halves[LOWER][0] == identifier
    for identifier in (0x1A, 0x1C, 0x1D, 0x26):
        with pytest.raises(ValueError):
            Image.from_dump(bytes([identifier]) + lower[1:] + bytes(128))


def pages_of(image: Image) -> List[str]:
    return [str(key) for key in image.halves]


def by_tool(dump: bytes, file: pathlib.Path) -> str:
    """The image that tools/module-image makes of a dump."""
    file.write_bytes(dump)
    tool = [sys.executable, str(ROOT / "tools/module-image"), str(file)]
    return subprocess.run(tool, capture_output=True, text=True, check=True).stdout


@pytest.mark.parametrize(
    "identifier, is_flat, read",
    [
        (0x18, 0x80, ["lower A0", "upper A0 00 00"]),
        (0x1E, 0xFF, ["lower A0", "upper A0 00 00"]),
        (0x18, 0x7F, [f"upper A0 00 {number}" for number in ("00", "01", "02", "10", "11")]),
        (0x0D, 0x04, ["lower A0", "upper A0 00 00"]),
        (0x11, 0xFF, ["lower A0", "upper A0 00 00"]),
        (0x0C, 0xFB, ["upper A0 00 00", "upper A0 00 03"]),
        (0x03, 0xFF, ["lower A0", "lower A2"]),
    ],
)
def test_flat_memory_has_page_00h_alone(
    identifier: int, is_flat: int, read: List[str], tmp_path: pathlib.Path
) -> None:
    dump = bytes([identifier, 0x50, is_flat]) + bytes(range(3, 256)) + bytes(20 * 128)
    file = tmp_path / "eeprom"
    text = by_tool(dump, file)
    for image in (Image.from_dump(dump), Image.from_port(file)):
        assert pages_of(image) == (read if read[0] == "lower A0" else ["lower A0", *read])
        assert image.to_text() == text


@pytest.mark.parametrize(
    "bank, number, is_page_00h", [(0, 0, True), (1, 0, True), (0, 0x10, False), (2, 0x11, False)]
)
def test_two_halves_of_a_paged_module_are_page_00h_unless_another_is_selected(
    bank: int, number: int, is_page_00h: bool, tmp_path: pathlib.Path
) -> None:
    lower = DR4.changed(LOWER, 126, bytes([bank, number])).halves[LOWER]
    dump = lower + DR4.halves[page(0x00)]
    image = Image.from_dump(dump)
    assert pages_of(image) == ["lower A0", "upper A0 00 00"][: 1 + is_page_00h]
    assert image.to_text() == by_tool(dump, tmp_path / "eeprom")


def test_two_halves_of_flat_memory_are_page_00h_whatever_is_selected(
    tmp_path: pathlib.Path,
) -> None:
    flat = DR4.changed(LOWER, 2, b"\x80").changed(LOWER, 127, b"\x11")
    dump = flat.halves[LOWER] + flat.halves[page(0x00)]
    assert pages_of(Image.from_dump(dump)) == ["lower A0", "upper A0 00 00"]
    assert Image.from_dump(dump).to_text() == by_tool(dump, tmp_path / "eeprom")


def test_a_port_leaves_out_what_can_t_be_read(tmp_path: pathlib.Path) -> None:
    dump, file = DR4.halves[LOWER] + DR4.halves[page(0x00)], tmp_path / "eeprom"
    file.write_bytes(dump + bytes(64))
    assert pages_of(Image.from_port(file)) == ["lower A0", "upper A0 00 00"]
    file.write_bytes(dump[:127])
    pytest.raises(OSError, Image.from_port, file)
    file.write_bytes(b"\xff" + dump[1:])
    assert pages_of(Image.from_port(file)) == ["lower A0"]


def test_a_page_that_the_driver_refuses_is_left_out(
    tmp_path: pathlib.Path, monkeypatch: pytest.MonkeyPatch
) -> None:
    file, pread = tmp_path / "eeprom", os.pread
    file.write_bytes(DR4.halves[LOWER] + bytes(20 * 128))
    refused = [128 * 3]

    def refusing(descriptor: int, count: int, offset: int) -> bytes:
        if offset in refused:
            raise OSError(5, "Input/output error")
        return pread(descriptor, count, offset)

    monkeypatch.setattr(os, "pread", refusing)
    read = ["lower A0", *(f"upper A0 00 {number}" for number in ("00", "01", "10", "11"))]
    assert pages_of(Image.from_port(file)) == read
    refused.append(0)
    pytest.raises(OSError, Image.from_port, file)


def test_a_device_is_part_of_a_key() -> None:
    text = f"module-image 1\nlower A2 {'00' * 128}\nupper A2 00 02 {'01' * 128}\nend\n"
    image = Image.from_text(text)
    assert list(image.halves) == [Key(0xA2), page(0x02, device=0xA2)]
    assert image.to_text() == text and Key(0xA2, True, 0, 2) == page(0x02, device=0xA2)


def test_a_bank_is_part_of_a_key() -> None:
    text = DR4.to_text().replace("upper A0 00 11", "upper A0 01 11")
    image = Image.from_text(text)
    assert page(0x11, bank=1) in image.halves and page(0x11) not in image.halves
    assert image.to_text() == text
    assert Key(0xA0, True, 1, 0x11) == page(0x11, 1) > page(0x12)
    assert [f"fault {fault_of(image.flags)}"] == cmisctl("flags", text)
    assert fault_of(SimulatedModule, image) == "SM1 upper A0 00 11"


def test_an_image_is_changed_and_reduced_at_places_that_it_has() -> None:
    for key, address, data in (
        (LOWER, 128, b"1"),
        (LOWER, 127, b"12"),
        (page(0x00), 0, b"1"),
        (page(0x00), 127, b"12"),
        (page(0x00), 255, b"12"),
    ):
        pytest.raises(ValueError, DR4.changed, key, address, data)
    changed = DR4.changed(LOWER, 126, b"\xfe\xfd").changed(page(0x00), 255, b"\xfc")
    assert changed != DR4 and changed.without(LOWER, page(0x00)) == DR4.without(LOWER, page(0x00))
    assert changed.halves[LOWER] == DR4.halves[LOWER][:126] + b"\xfe\xfd"
    assert changed.halves[page(0x00)] == DR4.halves[page(0x00)][:127] + b"\xfc"
    assert pages_of(DR4.without(page(0x01), page(0x02))) == [
        key for key in pages_of(DR4) if key[-2:] not in ("01", "02")
    ]
    again = Image.from_text(DR4.to_text())
    assert hash(again) == hash(DR4) and again == DR4
    again.halves.clear()  # which is a copy
    assert again == DR4
    turned = Image(dict(reversed(DR4.halves.items())))
    assert (turned, hash(turned), turned.to_text()) == (DR4, hash(DR4), DR4.to_text())
    assert repr(DR4.without(*list(DR4.halves)[2:])) == "<Image of lower A0, upper A0 00 00>"
