"""Tests of the package: python3 -m unittest discover -s tests -t . (or pytest), with the package and its library installed."""
