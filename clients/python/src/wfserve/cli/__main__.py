"""python3 -m wfserve.cli: the command `wf`."""

import logging
import sys

from . import main

if __name__ == "__main__":
    logging.basicConfig(level=logging.WARNING, format="%(asctime)s %(message)s")
    sys.exit(main())
