"""The C client is itself killed: a session file keeps its requests over its restarts."""

import os

from .clients import CLIENTS, ran
from .harness import compiler, within


@within(600)
def c_kills(place):
    """a C client with a session file, killed at each point of its work and at random moments, in turns with its server"""
    compiler()
    return ran(place, [os.path.join(CLIENTS, "c", "check"), place.program, "kills"], 590)
