"""Expectations compare the frames and states that sessions on a server or a bench received with those that a test
expects."""
