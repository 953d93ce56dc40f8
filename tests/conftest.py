"""Registers the options and fixtures of helpers/shared_fixtures.py for the tests of the program."""

from shared_fixtures import share as pytest_addoption  # noqa: F401
