"""The rest bus of a bench. Frames are due at exact times, and `run` advances from one due time to the next."""

from collections.abc import Mapping
from typing import TYPE_CHECKING, Optional

from canbusd._calls import explained
from canbusd._process.dialogue import moment_text
from canbusd._restbus.schedule import MICROS, micros
from canbusd._session.arguments import check_within
from canbusd._session.injection import Refused
from canbusd._session.protocol import NO_FRAMES, PASSING
from canbusd.frames import Frame
from canbusd.record import Attempt
from canbusd.rest_bus import RestBus, RestMessage
from canbusd.signals import Database

if TYPE_CHECKING:
    from canbusd.bench import Bench


class BenchRestBus(RestBus):
    """A rest bus that sends its frames through sessions of a bench."""

    def __init__(self, database: Database, interfaces: Mapping[str, str], bench: "Bench") -> None:
        super().__init__(database, interfaces)
        self._bench, self._now = bench, micros(float(bench._moment))
        has_fd = any(message.format.is_fd for message in self.messages)
        self._sessions = {
            name: bench.open(name, NO_FRAMES, fd=has_fd, error_frames=False)
            for name in dict.fromkeys(interfaces.values())
        }

    @explained()
    def run(self, until: float) -> list[Attempt]:
        """Sends the frames that are due before `until`, each at its due time, and returns the attempts made in this
        time.

        On a bench with a bit rate, these are the attempts that begin before `until`. On a bench without a bit rate, all
        waiting frames are tried at each due time.
        """
        check_within(until, "until")
        attempts: list[Attempt] = []
        end = micros(until)
        with self.changing():
            while True:
                due = self._schedule.first()
                is_due = due is not None and due < end
                goal = max(due, self._bench._now) if due is not None and is_due else end
                attempts += self._go_to(goal)
                if self._now < goal:
                    # A node woke up, so a message may be due earlier than `goal`.
                    continue
                if not is_due:
                    return attempts
                self._put()
                attempts += self._tried()

    def first_due(self) -> Optional[int]:
        """Returns the time when the next frame is due. The bench calls this while a test waits and bus time passes."""
        return None if self._is_closed else self._schedule.first()

    def put_due(self, moment: int) -> None:
        """Sends the frames that are due at this time. The bench calls this while a test waits and bus time passes."""
        with self.changing():
            self._now = moment
            self._put()

    def _put(self) -> None:
        for message, frame in self._due(self._now):
            answer = self._answer(message, frame)
            if answer and answer not in PASSING:
                raise Refused(answer)
            message.count(answer)

    def close(self) -> None:
        """Closes the rest bus, and its sessions if the bench still runs."""
        self._is_closed = True
        if not self._bench._is_over:
            for session in self._sessions.values():
                session.close()

    def now(self) -> int:
        return max(self._now, self._bench._now)

    def send_now(self, message: RestMessage, frame: Frame) -> None:
        answer = self._answer(message, frame)
        message.count(answer)
        if answer:
            raise Refused(answer)

    def _answer(self, message: RestMessage, frame: Frame) -> str:
        """Sends a frame. Returns the reason if the frame is refused, otherwise the empty string."""
        try:
            self._sessions[message.interface].send(frame)
            return ""
        except Refused as fault:
            return str(fault)

    def _go_to(self, moment: int) -> list[Attempt]:
        """Advances to a time. On a bench with a bit rate, this makes the attempts that begin before this time. Stops
        earlier if a node wakes up."""
        attempts: list[Attempt] = []
        if self._bench._rates:
            asleep = len(self._bench._sleepers)
            attempts = self._bench._run_until(moment_text(moment / MICROS), until_woken=True)
            if len(self._bench._sleepers) < asleep:
                moment = min(moment, self._bench._now)
        self._now = moment
        return attempts

    def _tried(self) -> list[Attempt]:
        """On a bench without a bit rate, makes attempts at the current time until no frame is waiting."""
        if self._bench._rates:
            return []
        first = self._bench.attempt(at=self._now / MICROS)
        return [first, *self._bench.run()] if first else []
