"""Computes how long frames take on a bus with bit rates. The program computes these times for a run that sends the
frames."""

from collections.abc import Iterable

from canbusd._process.rates import Rates
from canbusd.record import parse_record

# The maximum number of frames whose times are cached.
MOST_KEPT = 1 << 16
# The first lines of a record in which every frame is sent successfully. Version 4 supports all kinds of frames, and the
# record has room for the entries of all frames.
FRONT = ["canbus record 4", "bus 1 always 0000 1 4294967294 0", "open 0 1 = socket 0", "option 0 fd 1 = ok"]


class FrameTimes:
    """How long a frame and the bits after it take on the wire, in nanoseconds. The times are cached."""

    def __init__(self, rates: Rates) -> None:
        self.rates = rates
        self._kept: dict[str, int] = {}
        # If the program is missing, this call raises the error at once.
        self.of(["000#"])

    def of(self, texts: Iterable[str]) -> list[int]:
        """Returns the times of these frames, in order. All times that are not cached are computed by a single run of
        the program."""
        wanted = list(texts)
        new = [text for text in dict.fromkeys(wanted) if text not in self._kept]
        if len(self._kept) + len(new) > MOST_KEPT:
            self._kept.clear()
            new = list(dict.fromkeys(wanted))
        if new:
            self._kept.update(zip(new, self._asked(new)))
        return [self._kept[text] for text in wanted]

    def _asked(self, texts: list[str]) -> Iterable[int]:
        entries = FRONT[2:]
        for number, text in enumerate(texts):
            entries.append(f"send 0 {text} = number {number}")
            entries.append(f"attempt 0.000000 good = tried 0 {number} {text} done 0000 0000")
        lines = [*FRONT[:2], *entries, f"end {len(entries)}", ""]
        return parse_record("\n".join(lines).encode(), rates=self.rates).replay.steps.busy_nanos
