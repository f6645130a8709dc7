"""The fixtures that pytest finds where the package is installed. Each imports the package once a test
asks for it, so that a package without its library holds up no other test."""
from __future__ import annotations

from typing import Any

import pytest


@pytest.fixture
def simulated_module() -> Any:
    """That of dovecounter.pytest_plugin."""
    from dovecounter import pytest_plugin

    return pytest_plugin.module_of


@pytest.fixture
def refusing_bus() -> Any:
    """That of dovecounter.pytest_plugin."""
    from dovecounter import pytest_plugin

    return pytest_plugin.RefusingBus
