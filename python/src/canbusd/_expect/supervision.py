"""Expectations for several frames on a running server: cyclic frames, sequences of frames, and frames that do not
change.

    server.expect_cyclic(0x100, period=0.1, tolerance=0.01, count=10)
    server.expect_sequence("Request", "Response", within=0.5)
    server.expect_no_change(signal="Gear", within=1.0)
"""

from collections.abc import Iterable, Sequence
from typing import TYPE_CHECKING, Optional, Union, cast

from canbusd._calls import explained
from canbusd._expect.cyclic_checks import (
    Change,
    Followed,
    first_change,
    follow,
    gap_words,
    gaps_of,
    may_change,
    wrong_gaps,
)
from canbusd._database.formats import MessageFormat, SignalFormat, plain
from canbusd._expect.frame_matcher import SignalOf, Step, Wanted, wanted_of
from canbusd._expect.received_frames import Seen, without_copies
from canbusd._expect.signal_checks import Follower, Sample, is_between, limits_of, number_of
from canbusd._session.arguments import check_within
from canbusd._text import seconds_words, times
from canbusd._protected import profile_of
from canbusd.e2e import GOOD, Checker, Profile
from canbusd.frames import Frame
from canbusd.shapes import Shape
from canbusd.signals import Database, Value

if TYPE_CHECKING:
    from can.message import Message

    from canbusd._expect.observer import Observer

#: How many extra seconds to wait for cyclic frames, because frames may be late.
SLACK = 1.0
# The maximum number of wrong gaps that are shown in an error message.
MOST_GAPS = 100


def check_count(count: object, what: str) -> None:
    """Raises ValueError if a count is not a positive integer."""
    if isinstance(count, bool) or not isinstance(count, int) or count < 1:
        raise ValueError(f"count is a number of {what}, 1 or more, not {count!r}")


class Supervision:
    """The expectations for several frames. It is the base class of Expectations."""

    #: The database that defines the names of messages and signals; None if names can't be used.
    database: Optional[Database] = None

    def _observing(self) -> "Observer":
        """Returns the observer."""
        raise NotImplementedError

    def _shown(self, signals: Sequence[str] = ()) -> str:
        """Returns the last frames that the test received, as the end of an error message."""
        raise NotImplementedError

    @explained()
    def expect_cyclic(
        self,
        id: Union[int, str],
        period: float,
        tolerance: Optional[float] = None,
        count: int = 10,
        *,
        within: Optional[float] = None,
        channel: Optional[str] = None,
        is_extended_id: Optional[bool] = None,
    ) -> list[float]:
        """Returns the gaps between successive frames with this identifier, or of the message with this name, in
        seconds.

        `count` is the number of gaps. Each gap must be as long as the `period`, within the `tolerance`, which is a
        tenth of the period by default. The first frame is the first one since the last expectation. The gaps are
        computed from bus timestamps, so it does not matter how late the test calls this method. Raises AssertionError
        if gaps are wrong; the error shows each wrong gap. Also raises it if not enough frames arrive within `within`
        seconds; the default is the time of the periods plus one second.
        """
        __tracebackhide__ = True
        check_within(period, "period")
        if not period > 0:
            raise ValueError(f"period is a number of seconds above 0, not {period!r}")
        allowed = period / 10 if tolerance is None else tolerance
        check_within(allowed, "tolerance")
        check_count(count, "gaps")
        seconds = (count + 1) * (period + allowed) + SLACK if within is None else within
        check_within(seconds)
        wanted = Wanted(id, is_extended_id=is_extended_id, database=self.database, channel=channel)
        observer = self._observing()
        frames = observer.collect(wanted.matches, channel, count + 1, seconds)
        gaps = gaps_of([seen.moment for seen in frames])
        wrong = wrong_gaps(gaps, round(period * 1e6), round(allowed * 1e6))
        lines = [f"  {gap_words(gap, round(period * 1e6))}" for gap in wrong[:MOST_GAPS]]
        lines += [f"  .. {len(wrong) - MOST_GAPS} more"] if len(wrong) > MOST_GAPS else []
        fault = f"{len(wrong)} of {len(gaps)} gaps {'is' if len(wrong) == 1 else 'are'} wrong" if wrong else ""
        if len(gaps) < count:
            came = f"came {len(frames)} of {count + 1} times within {seconds_words(seconds)}"
            fault = f"{came}, and {fault}" if fault else came
        if fault:
            every = f"{wanted} every {seconds_words(period)}, give or take {allowed:g}"
            hint = observer.hint(wanted, channel) if len(gaps) < count else ""
            text = f"no {every}: {fault}{observer.missed(channel)}{hint}"
            raise AssertionError("\n".join([text, *lines]) + self._shown())
        observer.take(frames[-1], channel)
        return [gap.length / 1e6 for gap in gaps]

    @explained()
    def expect_protected(
        self,
        id: Union[int, str],
        profile: Optional[Profile] = None,
        count: int = 10,
        *,
        within: float = 1.0,
        channel: Optional[str] = None,
        is_extended_id: Optional[bool] = None,
    ) -> "list[Message]":
        """Returns `count` frames with this identifier, or of the message with this name. Their counters and checksums
        must be correct.

        `profile` is a profile of canbusd.e2e, such as ``e2e.Profile1(data_id=0x123)``. By default, the attributes of
        the message in the database define it. The frames may have been received since the last expectation, or may
        arrive within `within` seconds. The counter of the first frame must follow the counter of the previous frame if
        that frame was expected. Raises AssertionError if frames are wrong; the error shows each wrong frame and what is
        wrong with it.
        """
        __tracebackhide__ = True
        check_within(within)
        check_count(count, "frames")
        wanted = Wanted(id, is_extended_id=is_extended_id, database=self.database, channel=channel)
        checker = Checker(profile_of(profile, self._message_of(id)))
        profile = checker.profile
        observer = self._observing()
        before = observer.last_taken(wanted.matches, channel)
        if before is not None and not observer.is_forgotten(before):
            checker.check(before.frame.data)
        frames = observer.collect(wanted.matches, channel, count, within)
        found = [(checker.check(seen.frame.data), seen) for seen in frames]
        wrong = [f"  {status}: {observer.line(seen, channel)}" for status, seen in found if status not in GOOD]
        lines = wrong[:MOST_GAPS] + ([f"  .. {len(wrong) - MOST_GAPS} more"] if len(wrong) > MOST_GAPS else [])
        fault = (
            f"{len(wrong)} of {times(len(frames), 'frame')} {'is' if len(wrong) == 1 else 'are'} wrong" if wrong else ""
        )
        if len(frames) < count:
            came = f"came {len(frames)} of {count} times within {seconds_words(within)}"
            fault = f"{came}, and {fault}" if fault else f"{came}{observer.hint(wanted, channel)}"
        if fault:
            text = f"no {wanted} by {profile}: {fault}{observer.missed(channel)}"
            raise AssertionError("\n".join([text, *lines]) + self._shown())
        observer.take(frames[-1], channel)
        return [seen.frame.message(channel or observer.channel(seen)) for seen in frames]

    @explained()
    def expect_signal(
        self,
        signal: str,
        *,
        shape: Optional[Shape] = None,
        tolerance: Optional[float] = None,
        late: float = 0.01,
        between: Optional[Sequence[float]] = None,
        within: float = 1.0,
        id: Union[int, str, None] = None,
        channel: Optional[str] = None,
    ) -> list[tuple[float, Value]]:
        """Checks that a signal follows a shape of canbusd.shapes. Returns the values that follow the shape, each with
        its time in seconds since the first value.

        The shape must be complete within `within` seconds. A ramp is complete at its end, a sine wave after one period.
        Values before the shape are ignored. The `tolerance` is in units of the signal; the default is a hundredth of
        the difference between the shape's ends. A value may be up to `late` seconds late. Without a shape, all values
        in these seconds are returned. They must be `between` two values, by default within the limits of the database.
        Otherwise raises AssertionError; the error says how far the signal followed the shape, or which value is outside
        the limits.
        """
        __tracebackhide__ = True
        check_within(within)
        if shape is not None and between is not None:
            raise ValueError("expect_signal has a shape or between, not both")
        wanted = Wanted(id, signal=signal, between=None if shape else between, database=self.database, channel=channel)
        formats = SignalOf(signal, self.database).formats
        if shape is None:
            return self._values_between(wanted, formats, between, within, channel)
        if not isinstance(shape, Shape):
            raise ValueError(f"shape is one of canbusd.shapes, such as ramp(800, 3000, seconds=2), not {shape!r}")
        if not shape.is_of_time:
            raise ValueError(f"{shape!r} can't be expected: its values are not those of a moment")
        whole = shape.of(formats[0])
        name = next((value for value in whole.ends if isinstance(value, str)), None)
        if name is not None:
            raise ValueError(f"the values of a shape that is expected are numbers, not {name!r}")
        least, most = whole.span(0, whole.seconds)
        allowed = (most - least) / 100 if tolerance is None else tolerance
        check_within(allowed, "tolerance")
        check_within(late, "late")
        before = self._observing().last_taken(wanted.is_of, channel)
        follower = Follower(whole, allowed, late, None if before is None else before.moment / 1e6)
        return self._followed(wanted, follower, whole, formats, within, channel)

    def _followed(
        self,
        wanted: Wanted,
        follower: Follower,
        shape: Shape,
        formats: Sequence[SignalFormat],
        within: float,
        channel: Optional[str],
    ) -> list[tuple[float, Value]]:
        __tracebackhide__ = True
        observer, count = self._observing(), 0
        observer.received.channels(channel)

        def look() -> Optional[list[Sample]]:
            nonlocal count
            seen = [one for one in without_copies(observer.received.untaken(channel)) if wanted.is_of(one.frame)]
            for one in seen[count:]:
                count += 1
                value = cast(Optional[Value], wanted.content(one.frame))
                if value is not None:
                    found = follower.add(Sample(one.moment / 1e6, value, number_of(value, formats), one))
                    if found:
                        return found
            return None

        found = observer.wait(look, lambda seen: wanted.is_of(seen.frame), within)
        if found is None:
            text = f"{wanted} does not follow {shape!r} within {seconds_words(within)}"
            missed = observer.missed(channel)
            raise AssertionError(f"{text}: {follower.failure()}{missed}{self._shown(wanted.signals)}")
        observer.take(found[-1].seen, channel)
        return [(round(one.moment - found[0].moment, 6), one.value) for one in found]

    def _values_between(
        self,
        wanted: Wanted,
        formats: Sequence[SignalFormat],
        between: Optional[Sequence[float]],
        within: float,
        channel: Optional[str],
    ) -> list[tuple[float, Value]]:
        __tracebackhide__ = True
        observer = self._observing()
        least, most = limits_of(formats, between)
        ends = f"{plain(least)} to {plain(most)}"

        def is_wrong(frame: Frame) -> bool:
            value = cast(Optional[Value], wanted.content(frame))
            return value is not None and not is_between(value, formats, least, most)

        wrong = observer.find(is_wrong, channel, within)
        if wrong is not None:
            value = wanted.content(wrong.frame)
            line = observer.line(wrong, channel)
            raise AssertionError(f"{wanted} was {value}, not from {ends}: {line}{self._shown(wanted.signals)}")
        frames = [seen for seen in without_copies(observer.untaken(channel)) if wanted.content(seen.frame) is not None]
        missed = observer.missed(channel)
        if missed or not frames:
            text = missed or f": there was none{observer.hint(wanted, channel)}"
            raise AssertionError(f"whether {wanted} was from {ends} is not known{text}{self._shown(wanted.signals)}")
        observer.take(frames[-1], channel)
        began = frames[0].moment
        values = ((seen.moment, cast(Value, wanted.content(seen.frame))) for seen in frames)
        return [((moment - began) / 1e6, value) for moment, value in values]

    def _message_of(self, id: Union[int, str]) -> Optional[MessageFormat]:
        """Returns the message in the database with this name or identifier; None if there is none."""
        if self.database is None:
            return None
        if isinstance(id, str):
            return self.database.message(id)
        return next((one for one in self.database.messages if one.identifier == id), None)

    @explained()
    def expect_sequence(
        self,
        *steps: Step,
        within: float = 1.0,
        between: Optional[Sequence[Step]] = None,
        channel: Optional[str] = None,
    ) -> "list[Message]":
        """Returns the first frames that match these steps in order. They may have been received since the last
        expectation, or may arrive within `within` seconds.

        A step is an identifier, the name of a message, or a dict with arguments of `expect`, such as ``{"id": 0x123,
        "data": b"\\\\x01"}``. Between the first and the last step, any other frame is allowed by default. If `between`
        is given, only the frames in `between` are allowed. Error message frames are always allowed. Raises
        AssertionError if a step is missing or a frame is not allowed.
        """
        __tracebackhide__ = True
        if not steps:
            raise ValueError("a sequence has steps, such as 0x100, 0x101")
        check_within(within)
        wanted = [wanted_of(step, self.database) for step in steps]
        if between is not None and (isinstance(between, str) or not isinstance(between, Iterable)):
            raise ValueError(f"between is a list of steps, such as [0x100, 0x101], not {between!r}")
        allowed = None if between is None else [wanted_of(step, self.database) for step in between]
        observer = self._observing()

        def look() -> Optional[Followed]:
            followed = follow(without_copies(observer.received.untaken(channel)), wanted, allowed)
            return followed if followed.intruder or len(followed.found) == len(wanted) else None

        def may_be(seen: Seen) -> bool:
            return allowed is not None or any(one.matches(seen.frame) for one in wanted)

        observer.received.channels(channel)
        followed = observer.wait(look, may_be, within)
        if followed is None or followed.intruder:
            signals = [name for one in wanted for name in one.signals]
            raise AssertionError(f"{self._missing(wanted, followed, within, channel)}{self._shown(signals)}")
        observer.take(followed.found[-1], channel)
        return [seen.frame.message(channel or observer.channel(seen)) for seen in followed.found]

    def _missing(
        self, wanted: Sequence[Wanted], followed: Optional[Followed], within: float, channel: Optional[str]
    ) -> str:
        """Returns an error message that says which step of the sequence is missing, and which steps were found."""
        observer = self._observing()
        frames = observer.untaken(channel)
        found, intruder = followed or follow(frames, wanted, None)
        step = wanted[len(found)]
        if intruder is not None:
            text = f"{observer.line(intruder, channel)} came between {wanted[len(found) - 1]} and {step}"
        else:
            after = f" after {wanted[len(found) - 1]}" if found else ""
            at = "" if channel is None else f" at {channel}"
            text = f"no {step}{after}{at} within {seconds_words(within)}{observer.missed(channel)}"
            # The frame may have arrived too early, before the frame of an earlier step.
            early = next((seen for seen in frames if found and step.matches(seen.frame)), None)
            text += f": it came before, {observer.line(early, channel)}" if early else observer.hint(step, channel)
        lines = [f"  {observer.line(seen, channel)}" for seen in found]
        return "\n".join([text, *(["of the sequence came:", *lines] if found else [])])

    @explained()
    def expect_no_change(
        self,
        id: Union[int, str, None] = None,
        *,
        signal: Optional[str] = None,
        within: float = 1.0,
        channel: Optional[str] = None,
        is_extended_id: Optional[bool] = None,
    ) -> None:
        """Fails if the data of the frames with this identifier, or the value of this signal, changes within `within`
        seconds.

        The content must be the same as at the last expectation, or as in the first frame after it. Also fails if no
        such frame was ever received, or if frames were lost, because a lost frame may have had other content.
        """
        __tracebackhide__ = True
        if id is None and signal is None:
            raise ValueError("expect_no_change needs an id or a signal")
        check_within(within)
        wanted = Wanted(id, is_extended_id=is_extended_id, signal=signal, database=self.database, channel=channel)
        observer = self._observing()
        observer.received.channels(channel)
        before = observer.last_content(wanted, channel)

        def look() -> Optional[Change]:
            return first_change(before, observer.received.untaken(channel), content)

        def content(seen: Seen) -> Optional[object]:
            return wanted.content(seen.frame)

        change = observer.wait(look, may_change(before, content), within)
        if change is not None:
            text = f"{wanted} changed from {change.before} to {change.after}"
            raise AssertionError(f"{text}: {observer.line(change.seen, channel)}{self._shown(wanted.signals)}")
        missed = observer.missed(channel)
        if not missed and before is None and not observer.contents(wanted, channel):
            missed = f": there was none{observer.hint(wanted, channel)}"
        if missed:
            raise AssertionError(f"whether {wanted} changed is not known{missed}{self._shown(wanted.signals)}")
