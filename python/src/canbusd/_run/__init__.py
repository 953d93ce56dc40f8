"""Runs: their events as columns of numbers, their description in words, their logs, and the comparison of two runs."""
