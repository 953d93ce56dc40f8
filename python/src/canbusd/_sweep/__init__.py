"""The sweep: a test is repeated with each kind of fault at each of its attempts. Every repetition runs in its own
process."""
