"""What refuses memory finds a call that isn't made again, a test that fails, and memory that is asked for."""
from __future__ import annotations

import contextlib
import io
import pathlib
import shutil
import subprocess
import sys
import tempfile
import unittest
import unittest.mock
from collections.abc import Callable

import refused_leaves
import without_memory

# Says where the allocator counts, and asks for some blocks there, each once more where TRIES says so.
COUNTED = """
#include <stdlib.h>
int main(void)
{
    int failed = 0;
    free(malloc(1000037));
    for (int i = 0; i < 3; i++) {
        char *volatile block = NULL;
        for (int tries = 0; !block && tries < TRIES; tries++)
            block = malloc(100 + i);
        failed |= !block;
        free(block);
    }
    free(malloc(1000039));
    return FAILS && failed;
}
"""
# Says where it takes no memory, and asks for so many bytes there, if any.
WITHOUT = """
#include <stdlib.h>
int main(void)
{
    free(malloc(1000003));
    if (BYTES) {
        char *volatile block = malloc(BYTES);
        free(block);
    }
    free(malloc(1000033));
    return 0;
}
"""


@unittest.skipUnless(shutil.which("cc"), "there is no C compiler")
class Refused(unittest.TestCase):
    def setUp(self) -> None:
        folder = tempfile.TemporaryDirectory()
        self.addCleanup(folder.cleanup)
        self.folder = pathlib.Path(folder.name)

    def built(self, source: str, *words: str) -> str:
        """A program of this source, with these words for the compiler."""
        program = self.folder / "-".join(["program", *words])
        call = ["cc", "-O0", "-w", *words, "-x", "c", "-o", str(program), "-"]
        subprocess.run(call, input=source, text=True, check=True)
        return str(program)

    def status(self, main: Callable[[], int], *programs: str) -> int:
        """The status of a tool over these programs."""
        with unittest.mock.patch.object(sys, "argv", ["tool", *programs]), contextlib.redirect_stdout(io.StringIO()):
            return main()

    def test_a_call_has_to_be_made_again(self) -> None:
        for tries, fails, status in ((2, 1, 0), (1, 0, 1), (1, 1, 1)):
            with self.subTest(tries=tries, fails=fails):
                program = self.built(COUNTED, f"-DTRIES={tries}", f"-DFAILS={fails}")
                self.assertEqual(self.status(refused_leaves.main, program), status)

    def test_nothing_counted_is_no_test(self) -> None:
        self.assertEqual(self.status(refused_leaves.main, self.built(WITHOUT, "-DBYTES=0")), 1)

    def test_memory_that_is_asked_for_is_found(self) -> None:
        for count, status in ((0, 0), (3, 1)):
            with self.subTest(count):
                self.assertEqual(self.status(without_memory.main, self.built(WITHOUT, f"-DBYTES={count}"), "a::test"), status)

    def test_a_place_without_memory_has_to_be_there(self) -> None:
        counted = self.built(COUNTED, "-DTRIES=2", "-DFAILS=1")
        self.assertEqual(self.status(without_memory.main, counted, "a::test"), 1)


if __name__ == "__main__":
    unittest.main()
