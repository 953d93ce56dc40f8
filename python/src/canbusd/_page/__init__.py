"""The page of a run and the live page: their data, scripts and styles."""
