"""Adds the steps and buses of a test to the reports of pytest-html and allure-pytest.

The code is based on the documentation of both plugins.
"""

import os
import sys
from collections.abc import Sequence
from typing import Any

from canbusd import steps


def attach_to_allure(text: str, pages: Sequence[str]) -> None:
    """Attaches a description of a bus and the pages of the bus to the report of allure-pytest, if that plugin is
    active."""
    allure = steps.with_allure()
    if allure is None:
        return
    allure.attach(text, name="canbusd", attachment_type=allure.attachment_type.TEXT)
    for page in pages:
        allure.attach.file(page, name=os.path.basename(page), attachment_type=allure.attachment_type.HTML)


def add_to_html(config: Any, report: Any, text: str, pages: Sequence[str]) -> None:
    """Adds the steps, the description of the buses, and links to the pages of the buses to the report of pytest-html,
    if that plugin is active. The additions are attached to pytest's report for the teardown phase.
    """
    html: Any = sys.modules.get("pytest_html")
    path = config.getoption("htmlpath", None)
    if html is None or not path:
        return
    extras = []
    if steps.current.done:
        extras.append(html.extras.text("\n".join(steps.current.lines()), name="steps"))
    if text:
        extras.append(html.extras.text(text, name="canbusd"))
    folder = os.path.dirname(os.path.abspath(path))
    extras += [html.extras.url(os.path.relpath(page, folder), name="page") for page in pages]
    # In version 4 of pytest-html, the attribute is called extras.
    name = "extra" if str(getattr(html, "__version__", "4")).startswith(("1.", "2.", "3.")) else "extras"
    setattr(report, name, [*getattr(report, name, []), *extras])
