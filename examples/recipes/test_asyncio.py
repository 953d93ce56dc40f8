"""asyncio.

A bus has a file descriptor, so python-can's `Notifier` needs no thread. The test awaits the reader.
"""

import asyncio
import can
import pytest


@pytest.mark.canbusd("ecu,tester")
@pytest.mark.canbusd_sweep()
def test_an_answer(canbusd):
    async def ask(ecu, tester):
        loop, reader = asyncio.get_running_loop(), can.AsyncBufferedReader()
        answer = can.Message(arbitration_id=0x101, is_extended_id=False)
        notifiers = [
            can.Notifier(ecu, [lambda _: ecu.send(answer)], loop=loop),
            can.Notifier(tester, [reader], loop=loop),
        ]
        tester.send(can.Message(arbitration_id=0x100, is_extended_id=False))
        received = await asyncio.wait_for(reader.get_message(), 5)
        for notifier in notifiers:
            notifier.stop()
        return received.arbitration_id

    # Error message frames are switched off, because they would count as requests and answers.
    with canbusd.bus("ecu", error_frames=False) as ecu, canbusd.bus("tester", error_frames=False) as tester:
        assert asyncio.run(ask(ecu, tester)) == 0x101
