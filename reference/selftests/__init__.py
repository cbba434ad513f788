"""The self tests of the second implementation, a file for each matter. `selftest.py` runs them."""
