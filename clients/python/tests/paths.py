"""Lets the tests find the package in this repository, whether or not it is installed. Each test imports this first."""

import pathlib
import sys

sys.path.insert(0, str(pathlib.Path(__file__).resolve().parents[1]))
