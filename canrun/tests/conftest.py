"""The tests of canbusd-run use the options and fixtures from tests/helpers/shared_fixtures.py."""

from shared_fixtures import share as pytest_addoption  # noqa: F401
