"""A lamp. Each frame 100 from its switch turns it on or off. With `counts` it also checks the number in the frame."""

TOGGLE = 0x100


class Lamp:
    """The lamp's node. `receive` has to be called with each received frame."""

    def __init__(self, counts=False):
        self.is_on, self.counts, self.last = False, counts, None

    def receive(self, frame):
        """Turns the lamp on or off. A lamp with `counts` does not obey the same frame twice."""
        if frame.arbitration_id != TOGGLE or (self.counts and frame.data[0] == self.last):
            return
        self.is_on, self.last = not self.is_on, frame.data[0]
