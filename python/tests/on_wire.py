"""The duration of frames on the wire, computed by the model in tests/helpers/wire_model.py and wire_times.py of the
repository."""

import sys
from pathlib import Path

sys.path.append(str(Path(__file__).parents[2] / "tests" / "helpers"))

from wire_model import Frame  # noqa: E402
from wire_times import Rates  # noqa: E402


def nanos_of(text, bitrate, dbitrate=None):
    """Returns two durations in nanoseconds: that of the frame, and that of its successful attempt. The attempt ends
    when the next one may begin.
    """
    rates, frame = Rates(bitrate, dbitrate), Frame.read(text)
    return rates.frame_nanos(frame), rates.attempt_nanos(frame)
