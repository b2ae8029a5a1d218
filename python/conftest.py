"""Fixtures of the tests, which run by pytest over the library that backend.py would take: the one
that HEDRUGAL_LIBRARY names, or the one that make built, or an installed or the prebuilt one.

    python3 -m pytest python"""
import os
import sys

import pytest

sys.dont_write_bytecode = True
pytest.register_assert_rewrite("cases", "helpers")
try:
    import backend

    os.environ["HEDRUGAL_LIBRARY"] = str(backend.shared_library()[0])
    import hedrugal
except (ImportError, SystemExit) as error:
    pytest.exit(f"the tests can't start: {error}", returncode=2)


def pytest_configure(config):
    config.addinivalue_line("filterwarnings", "error")


@pytest.fixture(params=hedrugal.Dialect, ids=lambda dialect: dialect.name)
def parser(request):
    """A parser of each dialect: what both read is tested with both."""
    with hedrugal.Parser(request.param) as it:
        yield it
