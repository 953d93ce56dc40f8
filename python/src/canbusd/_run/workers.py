"""Reads the event lines of a large run in several processes, and adds the resulting chunks to the run in order."""

import contextlib
import itertools
import multiprocessing
import os
import signal
import threading
from collections import deque
from collections.abc import Iterable, Iterator, Sequence
from multiprocessing.connection import Connection

from canbusd._run.chunks import Reader, opened_in
from canbusd._run.run_parts import Bus
from canbusd.replay import Replay

# The number of blocks of lines that this process reads alone before worker processes help. A small run needs no
# workers.
FEW = 32
# The maximum number of worker processes. More would be no faster, because only this process adds chunks to the run.
MOST = 3


def take_all(run: Replay, texts: Iterable[str]) -> None:
    """Adds the events to a run. Each string in `texts` consists of complete lines."""
    all_texts = iter(texts)
    run.take_texts(itertools.islice(all_texts, FEW))
    count = min(len(os.sched_getaffinity(0)) - 1, MOST)
    text = next(all_texts, "")
    # A process with several threads is not forked, so it reads everything alone.
    if text and run.bus is not None and count > 0 and threading.active_count() == 1:
        with contextlib.closing(Workers(run.bus, count)) as workers:
            take_by(workers, run, itertools.chain([text], all_texts))
    else:
        run.take_texts(itertools.chain([text], all_texts))


def take_by(workers: "Workers", run: Replay, texts: Iterator[str]) -> None:
    """Adds the events to a run. Worker processes read the lines."""
    sockets = run.socket_ifaces()
    busy: deque[Connection] = deque()
    for text in texts:
        # A worker gets its next lines before the chunk of its previous lines is added to the run, so that it always has
        # work.
        pipe = busy.popleft() if len(busy) == len(workers.pipes) else None
        chunk = pipe.recv() if pipe else None
        pipe = pipe or workers.pipes[len(busy)]
        pipe.send((text, sockets))
        busy.append(pipe)
        if "\nopen " in f"\n{text}":
            sockets = [*sockets, *opened_in(text.split("\n"))]
        if chunk:
            run.take_chunk(chunk)
    for pipe in busy:
        run.take_chunk(pipe.recv())


class Workers:
    """Worker processes that read event lines. Each of them has its own pipe."""

    def __init__(self, bus: Bus, count: int) -> None:
        self.pipes: list[Connection] = []
        context = multiprocessing.get_context("fork")
        for _ in range(count):
            pipe, its = context.Pipe()
            self.pipes.append(pipe)
            context.Process(target=work, args=(bus, its, [*self.pipes]), daemon=True).start()
            its.close()

    def close(self) -> None:
        """Ends the processes."""
        for pipe in self.pipes:
            pipe.close()
        multiprocessing.active_children()


def work(bus: Bus, pipe: Connection, others: Sequence[Connection]) -> None:
    """Reads lines as they arrive, until the main process closes the pipe or ends."""
    signal.signal(signal.SIGINT, signal.SIG_IGN)
    for other in others:
        other.close()
    reader = Reader(bus)
    with contextlib.suppress(EOFError, OSError):
        while True:
            pipe.send(reader.read(*pipe.recv()))
