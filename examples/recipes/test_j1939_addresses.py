"""J1939 addresses.

The daemon j1939acd of can-utils claims an address for an ECU. Another node claims the same address with a smaller NAME, which
has priority (SAE J1939-81), so the ECU takes the next address. It defends that address against a larger NAME with its own claim.
"""

import pytest

NAME, SMALLER, LARGER = 0x2000000000A00001, 0x1000000000A00002, 0x3000000000A00003


def claim(address, name):
    return 0x18EEFF00 + address, name.to_bytes(8, "little")


@pytest.mark.canbusd("ecu,tester", bitrate=250_000)
def test_the_smaller_name_has_the_address(canbusd, tmp_path):
    canbusd.start(["j1939acd", "-r", "128-130", "-c", tmp_path / "cache", f"{NAME:x}", "ecu"])
    canbusd.expect(*claim(128, NAME), within=5)
    with canbusd.bus("tester") as tester:
        tester.send(*claim(128, SMALLER))
        canbusd.expect_sequence(claim(128, SMALLER)[0], claim(129, NAME)[0], within=5)
        tester.send(*claim(129, LARGER))
        canbusd.expect(*claim(129, LARGER), within=5)
        canbusd.expect(*claim(129, NAME), within=5)
