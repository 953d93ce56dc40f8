"""Leaves out the recipes whose modules are not installed."""

from importlib.util import find_spec

DATABASES = ["cantools", "canmatrix"]
NEEDED = {
    "test_udsoncan.py": ["udsoncan"],
    "test_a_rest_bus.py": DATABASES,
    "test_end_to_end_protection.py": DATABASES,
    "test_shapes_of_signals.py": DATABASES,
}
collect_ignore = [file for file, modules in NEEDED.items() if not any(map(find_spec, modules))]
