"""How records are shown, values in units, and the fixtures for pytest."""
from __future__ import annotations

import dataclasses
import json
import os
import re
import subprocess
import sys
from pathlib import Path
from typing import Any, Callable, Dict, Mapping, Set, Type
from xml.etree import ElementTree

import pytest

from dovecounter import (
    LOWER,
    DataPath,
    Fault,
    Image,
    LaneCurrents,
    LanePowers,
    ModuleState,
    Operation,
    Provisioning,
    SimulatedModule,
    Support,
    Wait,
    page,
    plan,
)
from dovecounter.pytest_plugin import RefusingBus, refusing_bus, simulated_module
from shared import IMAGES, ROOT, WEIGHTS, example, image_of

__all__ = ["refusing_bus", "simulated_module"]  # pytest finds them here

DR4 = example("qsfp_dd_400g_dr4.txt")
DR8 = example("osfp_800g_dr8.txt")


def reports_of(image: Image) -> Dict[str, Any]:
    """The reports that an image has, by their names."""
    found = {}
    for name in ("inventory", "flags", "monitors", "advertisement", "durations"):
        try:
            found[name] = getattr(image, name)()
        except Fault:
            pass
    return found


@pytest.mark.parametrize("path", IMAGES, ids=str)
def test_records_become_json(path: Any) -> None:
    for name, report in reports_of(image_of(path)).items():
        members = report.to_dict()
        assert json.loads(json.dumps(members)) == members, name
        assert members.keys() == vars(report).keys(), name


def test_what_a_dictionary_has() -> None:
    inventory = DR8.inventory().to_dict()
    assert inventory["family"] == "CMIS"
    assert inventory["oui"] == "001122"
    assert inventory["revision"] == [5, 0]
    assert inventory["sum_ext_right"] is None
    flags = DR8.flags().to_dict()
    assert flags["state"] == "ModuleReady" and flags["path_states"] == ["DPActivated"] * 8
    assert flags["vcc"]["low_alarm"] == 0
    monitors = DR8.monitors().to_dict()
    assert monitors["temperature"]["value"] == 45500
    assert monitors["temperature"]["limits"]["high_alarm"] == 75000
    assert monitors["tx_bias"]["support"] == "MEASURED" and len(monitors["tx_bias"]["values"]) == 8
    first = DR4.advertisement().to_dict()["applications"][0]
    assert first == DR4.applications()[0].to_dict() and first["number"] == 1
    best = plan(DR4, WEIGHTS).to_dict()
    assert best["weight"] == 404 and best["control"] == "2020242428282c2c"
    assert best["paths"][1] == {"application": 2, "host": 3, "media": 2}
    assert DataPath(1, 2, 3).to_dict() == {"application": 1, "host": 2, "media": 3}


def test_a_reserved_code_stays_a_number() -> None:
    lower = DR8.halves[LOWER]
    reserved = DR8.changed(LOWER, 3, bytes([lower[3] & 0xF1 | 7 << 1]))
    assert reserved.flags().to_dict()["state"] == 7


def cells_of(html: str) -> Dict[str, str]:
    """The rows of a table, as a browser shows them."""
    table = ElementTree.fromstring(html)
    assert table.tag == "table"
    return {row[0].text or "": row[1].text or "" for row in table.findall("tr")}


def test_a_notebook_shows_a_table() -> None:
    html = DR8.inventory()._repr_html_()
    assert ElementTree.fromstring(html).findtext("caption") == "Inventory"
    cells = cells_of(html)
    assert cells["part"] == "OSFP-800G-DR8" and cells["revision"] == "5 0"
    assert "sum ext right" not in cells
    monitors = cells_of(DR8.monitors()._repr_html_())
    assert monitors["temperature, value"] == "45500"
    assert monitors["temperature, limits, high alarm"] == "75000"
    assert monitors["rx power, values"].split()[:2] == ["1000000", "995200"]
    advertised = cells_of(DR4.advertisement()._repr_html_())
    assert advertised["applications 2, number"] == "2"
    assert advertised["unsupported"] == str(DR4.advertisement().unsupported)
    alone = dataclasses.replace(DR4.advertisement(), applications=DR4.applications()[:1])
    assert cells_of(alone._repr_html_())["applications 1, number"] == "1"
    flags = cells_of(DR8.flags()._repr_html_())
    assert not [name for name in flags if "None" in name]
    assert (flags["vcc, low alarm"], flags["tx los"], cells["is flat"]) == ("0", "0", "False")
    assert "path states" not in cells_of(example("sfp_10g_lr.txt").flags()._repr_html_())


def test_a_table_shows_a_text_as_it_is() -> None:
    marked = DR8.changed(page(0x00), 129, b"<b>&amp;</b>    ")
    html = marked.inventory()._repr_html_()
    assert cells_of(html)["vendor"] == "<b>&amp;</b>"
    assert "&lt;b&gt;" in html and "<b>" not in html


def shapes_of(svg: str) -> Dict[str, Any]:
    """The boxes of a picture: where each lies, by its text."""
    tree = ElementTree.fromstring(svg)
    space = "{http://www.w3.org/2000/svg}"
    rects, texts = tree.findall(f"{space}rect"), tree.findall(f"{space}text")
    assert tree.tag == f"{space}svg" and len(rects) == len(texts)
    return {
        text.text or "": tuple(int(rect.get(name, "")) for name in ("x", "y", "width"))
        for rect, text in zip(rects, texts)
    }


def test_a_plan_is_a_picture() -> None:
    shapes = shapes_of(plan(DR4, WEIGHTS)._repr_svg_())
    assert len(shapes) == 12
    frame = ElementTree.fromstring(plan(DR4, WEIGHTS)._repr_svg_())
    assert (frame.get("viewBox"), frame.get("width")) == ("-1 -1 514 74", "514")
    assert shapes["1: 20"] == (0, 36, 64) and shapes["8: 2c"] == (448, 36, 64)
    assert shapes["app 2, media 1"] == (0, 0, 128)
    assert shapes["app 2, media 4"] == (384, 0, 128)
    whole = shapes_of(plan(DR4, {0x11: 400})._repr_svg_())
    assert whole["app 1, media 1"] == (0, 0, 512) and len(whole) == 9
    middles = {text.text: (text.get("x"), text.get("y")) for text in frame if text.text}
    assert (middles["app 2, media 4"], middles["8: 2c"]) == (("448", "22"), ("480", "58"))
    assert len(shapes_of(plan(DR4, {})._repr_svg_())) == 8


def test_values_in_units() -> None:
    found = DR8.monitors()
    assert found.temperature.celsius == 45.5
    assert found.vcc.volts == 3.3
    assert found.tx_bias.amperes[:2] == (0.08, 0.080128)
    assert found.rx_power.watts[:2] == (0.001, 0.0009952)
    assert found.rx_power.dbm[0] == pytest.approx(0, abs=1e-12)
    assert found.tx_power.dbm[0] == pytest.approx(0.3342, abs=1e-4)
    assert len(found.tx_power.dbm) == len(found.tx_power.watts) == 8


def test_no_light_has_no_dbm() -> None:
    powers = LanePowers(Support.MEASURED, (0, 1, 10**7), None)
    assert powers.dbm[0] is None and powers.watts[0] == 0
    assert powers.dbm[1] == pytest.approx(-60) and powers.dbm[2] == pytest.approx(10)
    assert LanePowers(Support.UNSUPPORTED, (), None).dbm == ()
    assert LaneCurrents(Support.UNSUPPORTED, (), None).amperes == ()


def test_a_simulated_module(simulated_module: Callable[..., SimulatedModule]) -> None:
    module = simulated_module(DR4, init=30)
    assert repr(module) == repr(simulated_module(DR4.to_text()))
    slow, fast = simulated_module(DR4, apply=9), simulated_module(DR4, apply=1)
    best, ticks = plan(DR4, WEIGHTS), []
    for one in (slow, fast):
        procedure = Provisioning(best)
        procedure.run(one.transact, lambda _: None)
        ticks.append(procedure.steps or 0)
    assert ticks[0] > ticks[1] > 0
    with pytest.raises(TypeError):
        simulated_module(DR4, nothing=1)


def test_a_bus_that_refuses(
    simulated_module: Callable[..., SimulatedModule], refusing_bus: Type[RefusingBus]
) -> None:
    best, steps = plan(DR4, WEIGHTS), []
    nothing: Set[int] = set()
    for refused in (nothing, {3, 4}):
        bus = refusing_bus(simulated_module(DR4), refused)
        procedure = Provisioning(best)
        procedure.run(bus, lambda _: None)
        assert bus.module.active == best.control
        # looks at the module's state that were answered are none of its operations
        looks = {
            number
            for number, operation in enumerate(bus.operations, 1)
            if number > 1 and operation == Operation(0xA0, 3, 1, None)
        }
        assert len(bus.operations) - len(looks - refused) == procedure.steps
        assert len(looks & refused) == len(refused) // 2
        steps.append(procedure.steps or 0)
    assert steps[1] > steps[0] > 0
    bus = refusing_bus(simulated_module(DR4), {1}, cut=2)
    first = next(Provisioning(best))
    assert isinstance(first, Operation)
    assert bus(first) is False and bus.operations == [first]
    assert bus(first) is not False


def test_time_passes_while_a_bus_refuses(
    simulated_module: Callable[..., SimulatedModule], refusing_bus: Type[RefusingBus]
) -> None:
    module = simulated_module(DR4, power_down=2)
    assert module.store(0xA0, 26, b"\x10")  # asks for low power
    states, bus = [], refusing_bus(module, range(1, 9))
    for _ in range(4):
        assert bus(Operation(0xA0, 0, 1, None)) is False
        states.append(module.state)
    assert states[0] != ModuleState.ModuleLowPwr and states[-1] == ModuleState.ModuleLowPwr


def test_a_store_that_is_cut_short(
    simulated_module: Callable[..., SimulatedModule], refusing_bus: Type[RefusingBus]
) -> None:
    """The bytes that were stored before the bus refused are there."""
    module = simulated_module(DR4)
    store = next(it for it in stores_of(plan(DR4, WEIGHTS)) if it.offset >= 128 and it.count > 2)
    whole, cut = module.copy(), module.copy()
    for selecting in (whole, cut):
        assert selecting.store(0xA0, 126, bytes([0, 0x10]))
    before = cut.fetch(0xA0, store.offset, store.count)
    assert refusing_bus(cut, {1}, cut=1)(store) is False
    after = cut.fetch(0xA0, store.offset, store.count)
    assert before is not None and after is not None and store.data is not None
    assert after[:1] == store.data[:1] and after[1:] == before[1:]
    assert refusing_bus(whole, {1})(store) is False
    assert whole.fetch(0xA0, store.offset, store.count) == before


def stores_of(best: Any) -> Any:
    """The stores of a provisioning on a module that takes all."""
    module = SimulatedModule(DR4)
    procedure = Provisioning(best)
    for step in procedure:
        if isinstance(step, Wait):
            procedure.waited()
            continue
        if step.is_store:
            yield step
        procedure.reply(module.transact(step))


def test_the_plugin_has_its_entry_point() -> None:
    project = (ROOT / "python/pyproject.toml").read_text()
    found = re.search(r"\[project\.entry-points\.pytest11\]\n(.*)\n", project)
    assert found is not None and found[1] == 'dovecounter = "dovecounter_pytest"'


def run_of_pytest(folder: Path, environment: Mapping[str, str], tests: str) -> str:
    """What pytest says of tests, with the fixtures as it finds them where the package is installed."""
    (folder / "test_own.py").write_text(tests)
    words = [sys.executable, "-m", "pytest", "-p", "no:cacheprovider", "-p", "dovecounter_pytest"]
    ran = subprocess.run(
        words,
        cwd=folder,
        env={**os.environ, "PYTHONPATH": str(ROOT / "python"), **environment},
        capture_output=True,
        text=True,
        check=False,
    )
    return ran.stdout + ran.stderr


def test_installed_fixtures_are_those_of_the_package(tmp_path: Path) -> None:
    tests = f"""
IMAGE = {str(ROOT / "examples/qsfp_dd_400g_dr4.txt")!r}


def test_driver(simulated_module, refusing_bus):
    module = simulated_module(open(IMAGE).read(), init=30)
    assert refusing_bus(module, {{1}}).module is module
"""
    assert "1 passed" in run_of_pytest(tmp_path, {}, tests)


def test_a_package_without_a_library_holds_up_no_other_test(tmp_path: Path) -> None:
    tests = "def test_other(): pass\n\n\ndef test_driver(simulated_module): pass\n"
    said = run_of_pytest(tmp_path, {"DOVECOUNTER_LIBRARY": str(tmp_path / "none")}, tests)
    assert "1 passed, 1 error" in said and "ImportError" in said
