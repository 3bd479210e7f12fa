"""The fixtures of the tests, and what pytest prints."""

from __future__ import annotations

import os
import subprocess
from pathlib import Path
from typing import Iterator

import pytest
from failing_calls import Failing
from running import Runner, library_of
from small_checkout import Checkout

from cdc6600.checks.browsers import CLIENTS, why_left_out
from cdc6600.checks.web_driver import Browser
from cdc6600.shared.program import ROOT, Program


def pytest_addoption(parser: pytest.Parser) -> None:
    """`--seed` draws other sessions than those of each run, and `--pictures` names a folder for pictures of pages."""
    parser.addoption("--seed", default="25")
    parser.addoption("--pictures", type=Path)


def pytest_collection_modifyitems(config: pytest.Config, items: list[pytest.Function]) -> None:
    """Leaves out the test that takes pictures, if no folder is named for them."""
    if not config.getoption("--pictures"):
        items[:] = [it for it in items if "pictures" not in it.fixturenames]


@pytest.fixture(scope="session")
def program() -> Runner:
    """The program that CDC6600 names, or the one that is built of the sources as they are. The tools that a test calls
    run it too, so that none of them has to look at the sources."""
    path = Program().path
    os.environ.setdefault("CDC6600", path)
    return Runner(path)


@pytest.fixture(scope="session")
def failing(program: Runner, tmp_path_factory: pytest.TempPathFactory) -> Failing:
    """The program with calls that fail or are counted."""
    folder = tmp_path_factory.mktemp("failing")
    return Failing(program, library_of("failing_calls.c", folder), folder)


@pytest.fixture(scope="session")
def modules(tmp_path_factory: pytest.TempPathFactory) -> Path:
    """The folder that CDC6600_MODULE names, or one that tools/build-module fills."""
    if named := os.environ.get("CDC6600_MODULE"):
        return Path(named).resolve()
    folder = tmp_path_factory.mktemp("modules")
    subprocess.run([ROOT / "tools/build-module", folder], check=True)
    return folder


@pytest.fixture
def checkout(tmp_path: Path) -> Checkout:
    """A small checkout in which nothing is built."""
    return Checkout(tmp_path)


@pytest.fixture
def pictures(request: pytest.FixtureRequest) -> Path:
    """The folder for pictures of pages."""
    folder: Path = request.config.getoption("--pictures")
    return folder


@pytest.fixture(scope="session", params=CLIENTS)
def browser(request: pytest.FixtureRequest) -> Iterator[Browser]:
    """Each browser that is installed."""
    if told := why_left_out(request.param):
        pytest.skip(told)
    with CLIENTS[request.param]() as client:
        yield client


def pytest_report_teststatus(report: pytest.TestReport) -> tuple[str, str, str] | None:
    """Prints nothing for a case that passes."""
    return ("passed", "", "") if report.passed and report.when == "call" else None
