"""A door on a CAN bus, as your own program might be. It has no code for canbusd.

A command has the identifier 100. It contains a sequence number, and whether the door has to open. The door obeys the
command with the next number, and replies with a report (identifier 200). If a command is missing, the door requests it
with a frame 101.
"""

import can

COMMAND, REQUEST, REPORT = 0x100, 0x101, 0x200
# The bit for bus off in the class of an error message frame (linux/can/error.h).
BUS_OFF = 0x040


def message(identifier, *data):
    """Returns a message with an 11-bit identifier."""
    return can.Message(arbitration_id=identifier, data=data, is_extended_id=False)


class Door:
    """The behaviour of the door, without a bus."""

    def __init__(self):
        self.is_open = False
        self.moves = 0
        # The sequence number of the next command.
        self.number = 0

    def report(self):
        """Returns a report with the number of the last command that was obeyed, and whether the door is open."""
        return message(REPORT, (self.number - 1) % 256, self.is_open)

    def handle(self, received):
        """Obeys a command, and returns the messages to send."""
        if received.is_error_frame or received.arbitration_id != COMMAND:
            return []
        number, is_open = received.data
        ahead = (number - self.number) % 256
        if ahead >= 128:
            # The door has already obeyed this command. CAN may deliver a frame twice.
            return []
        if ahead > 0:
            return [message(REQUEST, self.number)]
        self.number = (self.number + 1) % 256
        if self.is_open != bool(is_open):
            self.is_open = bool(is_open)
            self.moves += 1
        return [self.report()]


def step(door, bus):
    """Waits for the next message, and handles it. After bus off the door restarts, and reports its state."""
    received = bus.recv(timeout=5)
    assert received is not None, "nothing came"
    if received.is_error_frame and received.arbitration_id & BUS_OFF:
        bus.state = can.BusState.ACTIVE
        bus.send(door.report())
    for answer in door.handle(received):
        bus.send(answer)
