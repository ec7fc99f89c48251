"""`python3 -m femem [OPTION ..] [SOCKET] COMMAND ..`: what waits at a server."""

import sys

from ._shell import main

sys.exit(main())
