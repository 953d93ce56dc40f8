"""Steps of a test.

The test reports of JUnit, pytest-html and allure-pytest list the steps, with the seconds since the test began. They name the
step that failed. A failed test also shows all steps on the terminal.
"""

import pytest
from canbusd import uds


@pytest.mark.canbusd("ecu,tester", bitrate=500_000)
def test_the_ecu_is_reset(canbusd):
    with uds.Ecu(canbusd, "ecu", tx=0x7E8, rx=0x7E0) as ecu, uds.Client(
        canbusd, "tester", tx=0x7E0, rx=0x7E8
    ) as tester:
        with canbusd.step("the extended session begins"):
            tester.session(3)
            assert ecu.session == 3
        with canbusd.step("a reset ends it"):
            tester.reset()
            assert ecu.session == 1
