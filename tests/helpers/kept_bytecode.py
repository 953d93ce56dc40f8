"""Sets the bytecode folder of a pytest process. It is the folder in TESTS_BYTECODE, from which other processes read
too, or none. Programs that the tests start do not use this folder."""

import os
import sys

sys.pycache_prefix = os.environ.get("TESTS_BYTECODE")
sys.dont_write_bytecode = sys.pycache_prefix is None
