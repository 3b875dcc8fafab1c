"""Tests of the packages, by unittest: `python3 -m unittest discover -t python -s python/packaging_tests` at the top."""
