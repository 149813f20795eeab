"""What tests of drawn workflows share: what was lost is told again at once, and without a word."""

import logging
import unittest
from unittest import mock


class ToldAtOnce(unittest.TestCase):
    """A worker waits for nothing before it tells again, and logs nothing of what tests do to it."""

    def setUp(self):
        patch = mock.patch("wfserve.workflows.reports.FIRST_PAUSE", 0)
        patch.start()
        self.addCleanup(patch.stop)
        logging.getLogger("wfserve.workflows").setLevel(logging.CRITICAL)
        self.addCleanup(logging.getLogger("wfserve.workflows").setLevel, logging.NOTSET)
