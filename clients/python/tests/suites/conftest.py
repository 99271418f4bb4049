"""SQLAlchemy's tests of a dialect, as its README.dialects says. Called by scripts/suites alone."""

from __future__ import annotations

from typing import Any

import sitecustomize
from sqlalchemy.testing.plugin.pytestplugin import *  # noqa: F401, F403


def pytest_runtest_logreport(report: Any) -> None:
    """Notes the outcome."""
    if report.when == "call" or report.outcome != "passed":
        sitecustomize.note(report.nodeid, report.outcome, str(report.longrepr or "")[-300:])
