"""The tests of the module, and of the proved functions through it: `PYTHONPATH=python python3 -m tests` runs all of them."""
