"""For builders that ask for this file, Debian's pybuild among them; all is in pyproject.toml."""
from setuptools import setup

setup()
