"""Benches with bit rates: the options, frames as messages, and the output for attempts."""

from __future__ import annotations

import random
import subprocess
from collections.abc import Iterable, Sequence

from wire_model import FD_LENGTHS, Frame, random_data
from wire_times import Rates

MICRO = 1000


def moment(nanos: int) -> str:
    """Returns a time in the program's notation, rounded down to a microsecond."""
    micros = nanos // MICRO
    return f"{micros // 1_000_000}.{micros % 1_000_000:06}"


def bench(
    program: str, options: Sequence[str], names: Sequence[str], lines: Iterable[str], status: int = 0
) -> list[str]:
    """Returns the output of a bench for its attempts. The bench has a session on each interface."""
    opened = []
    for number, name in enumerate(names, 1):
        opened += [f"session {number}", f"feed {number} < open {name} >< rawmode >< fdframes 1 >"]
    done = subprocess.run(
        [program, "bench", *options, ",".join(names)],
        input="".join(f"{line}\n" for line in [*opened, *lines]),
        capture_output=True,
        text=True,
        timeout=60,
        check=False,
    )
    assert done.returncode == status, done.stderr
    return [line for line in done.stdout.splitlines() if line.startswith(("tried", "idle", "record"))]


def rate_options(rates: Rates) -> list[str]:
    data = [] if rates.fast is None else ["--dbitrate", str(rates.fast)]
    return ["--bitrate", str(rates.nominal), *data]


def send(frame: Frame) -> str:
    """Returns the message that sends a frame."""
    name = f"{frame.number:0{8 if frame.extended else 3}X}"
    if frame.requests is not None:
        return f"< sendrtr {name} {frame.requests} >"
    data = "".join(f" {byte:02X}" for byte in frame.data)
    flags = frame.brs + 2 * frame.esi
    verb = f"sendfdx {flags}" if flags else "sendfd" if frame.is_fd else "send"
    return f"< {verb} {name} {len(frame.data)}{data or ' '} >"


def random_frame(maker: random.Random) -> Frame:
    extended = maker.random() < 0.5
    number = maker.getrandbits(29 if extended else 11)
    if maker.random() < 0.4:
        data = random_data(maker, maker.choice(FD_LENGTHS))
        return Frame(number, extended, data, None, True, maker.random() < 0.6, maker.random() < 0.3)
    if maker.random() < 0.2:
        return Frame(number, extended, requests=maker.randrange(9))
    return Frame(number, extended, random_data(maker, maker.randrange(9)))


def random_rates(maker: random.Random) -> Rates:
    nominal = maker.choice([5_000, 83_333, 500_000, 1_000_000, maker.randrange(5_000, 1_000_001)])
    return Rates(nominal, maker.choice([None, nominal, 20_000_000, maker.randrange(nominal, 20_000_001)]))
