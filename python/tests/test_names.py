"""The names of codes, against the tables of the sources, and those of a module, against the program."""
from __future__ import annotations

import dataclasses
import json
import operator
import pathlib
import re
from typing import Dict, Optional

import pytest

from shared import IMAGES, ROOT, cmisctl, example, image_of
from dovecounter import Family, Fault, Table, code_name, media_name

REASONS = {"Reserved": "reserved", "VendorSpecific": "vendor specific"}
ROW = re.compile(r'^    0x(\w\w) (?:to 0x(\w\w) )?(?:"(.*)"|(\w+));$', re.MULTILINE)


def rows_of(table: Table) -> Dict[int, str]:
    """What its file says of codes."""
    file = table.name.lower().replace("sff_", "sff")
    text = (ROOT / f"crates/code_names/src/tables/{file}.rt").read_text()
    said: Dict[int, str] = {}
    for first, last, name, reason in ROW.findall(text):
        for code in range(int(first, 16), int(last or first, 16) + 1):
            said[code] = name or REASONS[reason]
    assert len(ROW.findall(text)) == text.count("    0x") > 0
    return said


@pytest.mark.parametrize("table", Table, ids=operator.attrgetter("name"))
def test_each_code_has_the_name_of_its_table(table: Table) -> None:
    rows = rows_of(table)
    assert [code_name(table, code) for code in range(256)] == [
        rows.get(code, "not listed") for code in range(256)
    ]


def test_a_medium_is_named_by_the_table_of_its_media_type() -> None:
    tables: Dict[int, Optional[Table]] = {number: None for number in range(256)}
    tables.update(
        enumerate(
            (
                Table.MULTI_MODE_MEDIA,
                Table.SINGLE_MODE_MEDIA,
                Table.PASSIVE_COPPER,
                Table.ACTIVE_CABLES,
                Table.BASE_T_MEDIA,
            ),
            1,
        )
    )
    for media_type, table in tables.items():
        for code in (0, 1, 2, 0x1C, 0x7F, 0xBF, 255):
            wanted = "not listed" if table is None else code_name(table, code)
            assert media_name(media_type, code) == wanted


def test_numbers_out_of_range_are_refused() -> None:
    for table, code in ((0, 1), (28, 1), (1, 256), (1, -1)):
        with pytest.raises(ValueError, match=f"the code is {code}|is not a valid Table"):
            code_name(table, code)  # type: ignore[arg-type]
    for media_type, code in ((256, 1), (-1, 1), (1, 256), (1, -1)):
        with pytest.raises(ValueError, match="^the (code|media type) is (256|-1), "):
            media_name(media_type, code)
    with pytest.raises(TypeError):
        code_name(Table.CONNECTORS, 7.0)  # type: ignore[arg-type]


@pytest.mark.parametrize("path", IMAGES, ids=operator.attrgetter("name"))
def test_names_of_a_module_are_what_the_program_prints(path: pathlib.Path) -> None:
    image = image_of(path)
    try:
        found, _ = image.inventory(), image.details()
    except Fault:
        return
    printed = json.loads("\n".join(cmisctl("details --json", image.to_text())))
    named: Dict[str, Optional[str]] = {
        "identifier_name": found.identifier_name,
        "connector_name": found.connector_name,
    }
    if found.family == Family.CMIS:
        named["media_type_name"] = found.media_type_name
        named["technology_name"] = found.technology_name
    else:
        assert found.media_type_name is found.technology_name is None
    assert named == {name: printed[name] for name in named}
    if "host_interface_app_1" in printed:
        for one in image.applications():
            assert one.host_name == printed[f"host_interface_app_{one.number}_name"]
            medium = printed[f"media_interface_app_{one.number}_name"]
            assert one.media_name(found.media_type) == medium


def test_an_application_of_no_media_type_has_no_name() -> None:
    first = example("qsfp_dd_400g_dr4.txt").applications()[0]
    assert first.host_name == code_name(Table.HOST_INTERFACES, first.host_id)
    assert (
        first.media_name(None)
        == dataclasses.replace(first, media_id=1).media_name(None)
        == "not listed"
    )
