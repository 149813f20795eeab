"""The client's tests that want a server: all that bear the mark `needs_server` (clients/python/tests/support/programs.py).

Their modules lie in clients/python/tests. They run here since the edge is built for these tests; tools/gate clients leaves
them out.
"""

import unittest
from typing import Iterator

import the_edge  # noqa: F401 (it says where the next ones lie)
import python_client


def cases_in(suite: unittest.TestSuite) -> Iterator[unittest.TestCase]:
    """The tests of a suite, in their order."""
    for it in suite:
        if isinstance(it, unittest.TestSuite):
            yield from cases_in(it)
        else:
            yield it


def wants_server(test: unittest.TestCase) -> bool:
    """Whether a test or its class bears the mark. What can't be loaded is a test that fails."""
    method = getattr(test, test._testMethodName)
    marked = getattr(test, "wants_server", False) or getattr(method, "wants_server", False)
    return marked or type(test).__module__ == "unittest.loader"


def load_tests(loader: unittest.TestLoader, tests: unittest.TestSuite, pattern: str) -> unittest.TestSuite:
    """All of them, as unittest asks for them."""
    found = unittest.TestLoader().discover(str(python_client.TESTS), top_level_dir=str(python_client.TESTS))
    return unittest.TestSuite(test for test in cases_in(found) if wants_server(test))


if __name__ == "__main__":
    unittest.main()
