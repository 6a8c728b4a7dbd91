"""What the tests of a fleet need: aiohttp, as the service does."""

from importlib.util import find_spec

if find_spec("aiohttp") is None:    # the gate says so
    collect_ignore_glob = ["test_*.py"]
