"""Processes: the program `canbusd` and its options, its servers and benches, and the communication with these over
pipes."""
