"""Decides how pytest-xdist distributes tests. By default it assigns hundreds in a row to a process, so a process with
long tests finishes last."""

import itertools

import pytest

#: The largest number of tests that a process gets at once. They are from one file, so that few processes have to
#: prepare what its tests share.
MOST = 40
#: A process with fewer tests than this gets more, because it begins a test only when it has its next one.
FEWEST = 3


@pytest.hookimpl(optionalhook=True)
def pytest_xdist_make_scheduler(config, log):
    if config.getvalue("dist") != "load":
        return None
    from xdist.scheduler import LoadScheduling

    class FewAtATime(LoadScheduling):
        def check_schedule(self, node, duration=0):
            if self.pending:
                self._send_tests(node, MOST)
            elif not node.shutting_down:
                node.shutdown()

        def _send_tests(self, node, num):
            while self.pending and len(self.node2pending[node]) < FEWEST:
                share = len(self.pending) // (2 * len(self.nodes))
                files = (self.collection[place].partition("::")[0] for place in self.pending[: min(num, MOST)])
                _, first = next(itertools.groupby(files))
                super()._send_tests(node, max(1, min(share, len([*first]))))

    return FewAtATime(config, log)
