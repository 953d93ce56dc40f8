"""Restarts can0 200 ms after it went bus off."""

import time

import can

bus = can.Bus(interface="canbusd", channel="can0", error_frames=True)
for message in bus:
    if message.is_error_frame and message.arbitration_id & 0x40:
        print(f"{message.timestamp:.6f} off, seen at {time.time():.6f}", flush=True)
        time.sleep(0.2)
        bus.restart()
        print(f"{time.time():.6f} restarted", flush=True)
