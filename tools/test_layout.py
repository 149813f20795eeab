"""Sources that the toolchain would lay out otherwise are named, and no source is changed."""

import contextlib
import io
import sys
import unittest
from pathlib import Path

sys.path.insert(0, str(Path(__file__).resolve().parent))
import build_program
import layout
from scratch import Scratch

# It takes blanks at the ends of lines for another layout, and can't read `broken`.
RT = """#!/bin/sh
[ "$1" = fmt ] || exit 9
if grep -rq broken src; then echo "src/lib.rt:1: error"; exit 1; fi
find . -name '*.rt' -exec sed -i 's/ *$//' {} +
"""
FILES = {
    "crates.txt": "low:\nhigh: low\nbad:\n",
    "crates/low/src/lib.rt": "fn f() {}\n",
    "crates/low/out/lib.rt": "fn f() {} \n",
    "crates/high/src/lib.rt": "fn g() {}\n",
    "crates/high/src/more/parts.rt": "fn h() {}  \n",
    "crates/bad/src/lib.rt": "broken\n",
    "tests/uses.txt": "tests_one: low\n",
    "tests/one/lib.rs": "mod parts;\n",
    "tests/one/parts/first.rs": "fn i() {} \n",
}


class Layout(Scratch):
    FILES, RT = FILES, RT

    def setUp(self):
        super().setUp()
        self.replace(layout, TOP=self.top)
        self.replace(build_program, ROOT=self.top)

    def looked(self, *words: str, **variables: str) -> tuple:
        with self.with_toolchain(**variables), contextlib.redirect_stdout(io.StringIO()) as out, \
                contextlib.redirect_stderr(out):
            status = layout.main(list(words))
        return status, out.getvalue().splitlines()

    def test_what_is_laid_out_otherwise_is_named_and_stays(self):
        self.assertEqual(self.looked("low"), (0, []))
        self.assertEqual(self.looked(), (1, [
            "crates/high/src/more/parts.rt: rt fmt lays it out otherwise",
            "bad: rt fmt ended with status 1: src/lib.rt:1: error",
            "tests/one/parts/first.rs: rt fmt lays it out otherwise",
        ]))
        for name, text in FILES.items():
            self.assertEqual((self.top / name).read_text(encoding="utf-8"), text)

    def test_what_is_laid_out_is_written_where_that_is_asked_for(self):
        self.assertEqual(self.looked("--write", "high", "tests_one")[0], 0)
        self.assertEqual(self.looked("high", "tests_one"), (0, []))
        self.assertEqual((self.top / "tests/one/parts/first.rs").read_text(encoding="utf-8"), "fn i() {}\n")
        self.assertFalse(list((self.top / "tests").rglob("*.rt")))

    def test_what_can_not_be_looked_at_is_said(self):
        self.assertEqual(self.looked("hgh"), (2, ["layout: there is no crate hgh"]))
        status, said = self.looked("low", PATH=str(self.top / "none"))
        self.assertEqual((status, len(said)), (0, 1))


if __name__ == "__main__":
    unittest.main()
