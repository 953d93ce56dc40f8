"""ISO-TP in Python with segment faults: the segments of messages, the options of connections, and the ends of
connections."""
