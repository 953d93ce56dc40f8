"""A fleet of runs.

Runs share nothing, so a search can be spread over processors and machines: each run has a number. A failure can be
repeated on any machine with the number of its run, because a bench depends on nothing else:

    seq 0 99 | parallel RUN={} python3 -m pytest -q test_a_fleet_of_runs.py
    sbatch --array=0-99 --wrap 'RUN=$SLURM_ARRAY_TASK_ID python3 -m pytest -q test_a_fleet_of_runs.py'

or `RUN: [0, 1, 2]` in the matrix of a CI job.
"""

import os
import random
from canbusd import Bench, Faults

RUN = int(os.environ.get("RUN", "0"))


def test_all_frames_arrive_in_their_order():
    rng = random.Random(RUN)
    plan = Faults().destroyed(rng.sample(range(200), 12))
    with Bench("can0,can1", faults=plan) as bench:
        sender, receiver = bench.open("can0"), bench.open("can1", error_frames=False)
        for number in range(100):
            sender.send(rng.randrange(0x7FF), bytes([number]))
            bench.run()
        assert [frame.data[0] for frame in receiver.receive()] == list(range(100)), f"RUN={RUN} repeats this"
