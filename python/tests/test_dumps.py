"""Images of dumps in files, against tools/module-image, which reads them by the same parsers."""
from __future__ import annotations

import pathlib
import subprocess
import sys
import warnings
from typing import Dict, List, Tuple

import pytest

from shared import IMAGES, ROOT, example
from dovecounter import LOWER, Image, Key, dumps, page

DUMPS = ROOT / "tests/lib/dumps"
OF_TOOLS = sorted(file for file in DUMPS.iterdir() if file.name != "sfp_a2.i2cdump")
LOWER_A2 = Key(0xA2)
SFP = example("sfp_10g_lr.txt")


def by_tool(*names: pathlib.Path) -> Tuple[int, str, List[str]]:
    """Status, image and remarks of tools/module-image."""
    tool = [sys.executable, str(ROOT / "tools/module-image"), *map(str, names)]
    run = subprocess.run(tool, capture_output=True, text=True, check=False)
    remarks = [line.split(": ", 1)[1] for line in run.stderr.splitlines()]
    return (
        run.returncode,
        run.stdout,
        [remark for remark in remarks if " is read as " not in remark],
    )


def by_package(*names: pathlib.Path) -> Tuple[int, str, List[str]]:
    """The same of `Image.from_file`."""
    with warnings.catch_warnings(record=True) as caught:
        warnings.simplefilter("always")
        try:
            text = Image.from_file(*names).to_text()
        except ValueError as error:
            return 1, "", [f"{names[0]}: {error}"]
    assert all(warning.filename == __file__ for warning in caught)
    return 0, text, [str(warning.message) for warning in caught]


@pytest.mark.parametrize("file", OF_TOOLS + IMAGES, ids=str)
def test_a_file_is_read_as_by_the_tool(file: pathlib.Path, tmp_path: pathlib.Path) -> None:
    copy = tmp_path / "dump"
    copy.write_bytes(
        file.read_bytes().partition(b"---\n")[0] if file in IMAGES else file.read_bytes()
    )
    names = [copy, DUMPS / "sfp_a2.i2cdump"] if file.name == "sfp.i2cdump" else [copy]
    status, text, remarks = by_package(*names)
    assert (status, text, remarks) == by_tool(*names)
    assert status == 0 and Image.from_text(text).halves[LOWER]


@pytest.mark.parametrize(
    "contents", [b"", b"x\n", b"\xff" * 128, bytes(range(3, 131)) + b"1", b"module-image 1\nend\n"]
)
def test_a_file_that_is_no_dump_is_refused_as_by_the_tool(
    contents: bytes, tmp_path: pathlib.Path
) -> None:
    file = tmp_path / "dump"
    file.write_bytes(contents)
    status, _, [why] = by_package(file)
    assert (status, "", [why.partition(": ")[2]]) == (
        1,
        "",
        [by_tool(file)[2][0].partition(": ")[2]],
    )


def test_a_dump_without_lower_a0_is_refused(tmp_path: pathlib.Path) -> None:
    file = tmp_path / "page.txt"
    file.write_text(SFP.without(LOWER).to_text())
    with pytest.raises(ValueError, match="lacks the lower half of A0"):
        Image.from_file(file)


def test_a_second_file_is_for_an_sfp_module_without_a2h(tmp_path: pathlib.Path) -> None:
    a0, a2, both, other = (tmp_path / name for name in ("a0", "a2", "both", "other"))
    a0.write_bytes(SFP.halves[LOWER])
    a2.write_bytes(SFP.halves[LOWER_A2])
    both.write_text(SFP.to_text())
    other.write_text(example("qsfp_dd_400g_dr4.txt").to_text())
    with pytest.warns(UserWarning, match="taken for lower A0"):
        assert Image.from_file(a0, a2) == SFP.without(page(0x00))
    for first, second in ((both, a2), (other, a2)):
        with pytest.raises(ValueError, match="a second file is for an SFP module"):
            Image.from_file(first, second)
    with pytest.raises(ValueError, match="the same bytes"):
        Image.from_file(a0, a0)


def test_what_is_absent_is_warned_of(tmp_path: pathlib.Path) -> None:
    file = tmp_path / "image.txt"
    file.write_text(SFP.without(LOWER_A2).to_text())
    with pytest.warns(UserWarning, match="lower A2 is not there, and monitors, flags, details and"):
        assert Image.from_file(file) == SFP.without(LOWER_A2)


OF_FLAT = {"00": "inventory details metrics"}
OF_DETAILS = {"00": "details", "01": "details", "02": "", "10": "", "11": "details"}
OF_CMIS = {
    "00": "inventory details metrics",
    "01": "monitors details metrics",
    "02": "monitors metrics",
    "10": "",
    "11": "monitors flags details metrics",
}
OF_EIGHT_LANES = {
    "00": "inventory details metrics apps plan check draw provision trace",
    "01": "monitors details metrics apps plan check draw provision trace",
    "02": "monitors metrics",
    "10": "provision trace",
    "11": "monitors flags details metrics provision trace",
}
OF_A2 = "monitors flags details metrics"


@pytest.mark.parametrize(
    "identifier, others, wanted",
    [
        (0x18, {}, OF_EIGHT_LANES),
        (0x19, {2: 0x7F}, OF_EIGHT_LANES),
        (0x19, {2: 0x80}, OF_FLAT),
        (0x1E, {}, OF_CMIS),
        (0x1E, {2: 0x80}, OF_FLAT),
        (0x1B, {}, OF_DETAILS),
        (0x25, {2: 0x80}, {"00": "details"}),
        (0x11, {2: 0xFB}, {**OF_FLAT, "03": "monitors metrics"}),
        (0x0C, {2: 0x04}, OF_FLAT),
        (0x03, {2: 0xFF, 92: 0x40}, {"A2": OF_A2}),
        (0x03, {92: 0xBF}, {"A2": ""}),
        (0xFF, {2: 0xFF, 92: 0xFF}, {}),
    ],
)
def test_which_halves_of_a_module_are_wanted_by_which_commands(
    identifier: int, others: Dict[int, int], wanted: Dict[str, str]
) -> None:
    lower = bytearray(128)
    lower[0] = identifier
    for place, byte in others.items():
        lower[place] = byte
    found = dumps.wanted(bytes(lower))
    assert {key[-2:]: " ".join(commands) for key, commands in found.items()} == wanted
    assert dumps.is_known(identifier) == bool(wanted)
    assert dumps.is_flat(bytes(lower)) == (list(wanted) == ["00"])
    for selected, is_page_00h in ((0, True), (1, list(wanted) in (["00"], ["A2"]))):
        lower[127] = selected
        assert dumps.shows_page_00h(bytes(lower)) == is_page_00h
    last = dumps.key_in_row(identifier, 256)
    assert last == ("upper A2 00 fd" if identifier == 3 else "upper A0 00 ff")


def test_an_image_may_have_64_halves(tmp_path: pathlib.Path) -> None:
    file = tmp_path / "image.txt"
    halves = example("qsfp28_100g_sr4.txt").halves
    for version, most in ((1, 16), (2, 64)):
        numbers = range(0x20, 0x20 + most - len(halves))
        image = Image({**halves, **{page(number): bytes(128) for number in numbers}})
        file.write_text(image.to_text())
        assert image.to_text().startswith(f"module-image {version}\n")
        assert Image.from_file(file) == image
        line = f"upper A0 01 00 {'0' * 256}\nend\n"
        file.write_text(image.to_text().replace("end\n", line))
        with pytest.raises(ValueError, match=f"has {most + 1} page lines, and 'module-image"):
            Image.from_file(file)


def test_a_file_too_long_or_that_can_t_be_read(tmp_path: pathlib.Path) -> None:
    file = tmp_path / "long"
    file.write_bytes(bytes((1 << 22) + 1))
    with pytest.raises(ValueError, match="longer than 4194304 bytes"):
        Image.from_file(file)
    image = example("qsfp28_100g_sr4.txt")
    row = b"".join(image.halves.get(key, bytes(128)) for key in (LOWER, *map(page, range(4))))
    file.write_bytes(row.ljust(1 << 22, b"\0"))
    assert Image.from_file(file) == image
    pytest.raises(OSError, Image.from_file, tmp_path / "none")
    pytest.raises(IsADirectoryError, Image.from_file, tmp_path)
