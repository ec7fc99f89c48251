"""The model of the server, which the package has for tests of its users too."""

import sys

import paths  # noqa: F401

from femem import _model

sys.modules[__name__] = _model
