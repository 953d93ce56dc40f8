"""UDS: the bytes of requests and responses, and the data, functions and memory of a simulated ECU."""
