"""Client of femem, a server of words that are full or empty and survive its stops.

    from femem import Client

    with Client("/run/femem/femem.socket", session=7) as client:
        slot = client.create("slot", 1)
        client.writeef(slot, 0, 42)
        print(client.readfe(slot, 0))

`femem.aio` is the same for asyncio, `femem.patterns` has locks, queues and the like.
"""

import logging

from . import requests
from ._calls import Recovered, show_as
from ._client import Client, Pipeline
from ._errors import *
from .observer import Observer
from ._reports import Report, Waiter
from .requests import Array, Request

__version__ = "1.2.0.dev0"

logging.getLogger("femem").addHandler(logging.NullHandler())

__all__ = [
    "AnswerError", "Array", "ArrayLimit", "BadIndex", "BadLength", "BadName", "BelowFloor", "BeyondWindow",
    "BrokenBarrier", "Client", "Closed", "Closing", "FememError", "NameTaken", "NoArray", "NoMemory", "NoRight", "NotAttached",
    "NotNow", "NotOwner", "NotWaiting", "NumberUsed", "Observer", "OtherPattern", "Pipeline", "ProtocolError",
    "Recovered", "Refused", "Report", "Request", "ServerUnreachable", "SessionFileError", "SessionInUse",
    "SessionLimit", "SessionLost", "Spent", "StillWaiting", "TakenOver", "TimedOut", "Waiter", "Withdrawn", "WordLimit",
    "requests",
]  # fmt: skip

show_as(__name__, __all__)
