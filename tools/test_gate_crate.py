"""Wrong bodies are tried in a copy, and the note has those crates of which all were refused, body by body."""
from __future__ import annotations

import contextlib
import io
import shutil
import sys
import unittest
from collections.abc import Iterator
from pathlib import Path

sys.path.insert(0, str(Path(__file__).resolve().parent))
import build_program
import gate_crate
import rests_on
import tried
from scratch import Scratch

# A toolchain that refuses each wrong body of its folder but one, of which it says something else.
RT = """#!/bin/sh
if [ "$1" = version ]; then echo "kit 1"; exit 0; fi
echo "$*, $CI, $(tr '\\n' ' ' < crates.txt)" >> "$ASKED"
for edit in crates/*/must-fail/*; do
    [ -f "$edit" ] || continue
    echo "$edit" >> "$ASKED"
    crate=${edit#crates/}
    label="must-fail ${crate%%/*}/${edit##*/}"
    case $label in
    *"/$ODD.edit") echo "rt: $label: $SAID" ;;
    *.edit) echo "rt: $label: refused, as it must be: src/lib.rt:1:1: error" ;;
    esac
done
echo "2 passed, 0 failed"
exit "${STATUS:-0}"
"""
FILES = {
    "crates.txt": "low:\nhigh: low std_io\nwide: high\n",
    "HANDLES": "Handles allowed: none.\n",
    "tools/tried.txt": "",
    "crates/low/src/lib.rt": "fn f() {}\n",
    "crates/low/out/kept": "old",
    "crates/low/must-fail/none.md": "new: 0\n",
    "crates/high/src/lib.rt": "#[test]\nfn t() {}\n",
    "crates/high/must-fail/a.md": "new: 1\n",
    "crates/high/must-fail/b.md": "new: 2\n",
    "crates/wide/src/lib.rt": "fn g() {}\n",
    "crates/wide/must-fail/dear.md": "new: 3\n",
}
COPIED = gate_crate.copied


class Crates(Scratch):
    FILES, RT = FILES, RT

    def setUp(self) -> None:
        super().setUp()
        self.replace(gate_crate, TOP=self.top, copied=self.kept_copy)
        self.replace(build_program, ROOT=self.top)

    @contextlib.contextmanager
    def kept_copy(self, names: list[str]) -> Iterator[Path]:
        shutil.rmtree(self.top / "copy", ignore_errors=True)
        gate_crate.copy(names, self.top / "copy")
        yield self.top / "copy"

    def ran(self, *names: str, **variables: str) -> tuple[int, list[str], list[str]]:
        """The status of a run over these crates, what the toolchain was asked and found, and what was said."""
        asked = self.top / "asked"
        asked.write_text("", encoding="utf-8")
        with self.with_toolchain(**{"ASKED": str(asked), "ODD": "", "SAID": "", "STATUS": "0", "CI": "true", **variables}):
            with contextlib.redirect_stdout(io.StringIO()) as out:
                status = gate_crate.run(list(names), 0, lambda lines, listed: out.writelines(lines))
        return status, asked.read_text(encoding="utf-8").splitlines(), out.getvalue().splitlines()

    def noted(self) -> list[str]:
        return sorted(tried.read(self.top))

    def test_all_of_a_crate_are_tried_and_none_of_those_below(self) -> None:
        status, asked, said = self.ran("high")
        self.assertEqual((status, asked), (
            0, ["ci, true, low: high: low std_io ", "crates/high/must-fail/a.edit", "crates/high/must-fail/b.edit"]))
        self.assertEqual(said[-1], "gate: all 2 wrong bodies were refused")
        self.assertEqual(self.noted(), ["high"])

    def test_several_crates_are_one_run_and_what_builds_left_stays_behind(self) -> None:
        status, asked, _ = self.ran("wide", "low")
        self.assertEqual((status, len(asked)), (0, 3))
        self.assertFalse((self.top / "copy/crates/low/out").exists())
        self.assertEqual(self.noted(), ["low", "wide"])

    def test_the_files_of_the_tree_keep_their_names(self) -> None:
        self.ran("wide", "high", "low")
        self.assertEqual(sorted(path.name for path in self.top.glob("crates/*/must-fail/*")), ["a.md", "b.md", "dear.md", "none.md"])

    def test_one_that_is_not_refused_not_applied_or_not_tried_fails_and_its_crate_is_not_noted(self) -> None:
        for said in ("NOT REFUSED: the crate is still proved", "BAD EDIT: it changes nothing", "NOT TRIED: its check was killed"):
            with self.subTest(said=said):
                (self.top / tried.KEPT).write_text("", encoding="utf-8")
                status, _, lines = self.ran("high", "low", ODD="b", SAID=said)
                self.assertEqual((status, lines[-1]), (
                    1, "gate: FAILED: 1 of 3 wrong bodies were not refused, or not tried: high/b"))
                self.assertEqual(self.noted(), ["low"])

    def test_one_of_which_nothing_is_said_fails(self) -> None:
        (self.top / "crates/high/must-fail/odd name.md").write_text("new: 1\n", encoding="utf-8")
        status, _, lines = self.ran("high", ODD="odd name", SAID="")
        self.assertEqual((status, lines[-1]), (1, "gate: FAILED: 1 of 3 wrong bodies were not refused, or not tried: high/odd name"))

    def test_a_refusal_by_a_limit_or_of_an_earlier_run_counts(self) -> None:
        said = "refused, as it must be (only by a limit of the prover, which gave no verdict)"
        self.assertEqual(self.ran("high", ODD="b", SAID=said)[0], 0)

    def test_a_run_that_fails_otherwise_fails_and_says_so(self) -> None:
        status, _, lines = self.ran("high", STATUS="1")
        self.assertEqual((status, lines[-1]), (1, "gate: FAILED: rt ci over the copy ended with status 1"))

    def test_a_note_that_was_written_by_hand_is_found_out_once_its_crate_is_tried(self) -> None:
        tree = rests_on.Tree(self.top)
        with self.with_toolchain():
            sums = {name: tried.sums_of(name, tree, tried.kit_of()) for name in ("low", "high", "wide")}
            tried.note(sums, "by-hand", 0, self.top)
            due = tried.due(self.top)
        self.assertEqual(list(due), ["high"])
        self.assertEqual(self.ran(*due, ODD="a", SAID="NOT REFUSED: the crate is still proved")[0], 1)

    def test_what_changed_while_a_run_was_under_way_is_not_noted_as_tried(self) -> None:
        change = "#!/bin/sh\n[ \"$1\" = version ] || echo 'fn h() {}' > \"$TOP/crates/low/src/lib.rt\"\n"
        (self.top / "bin/rt").write_text(change + RT.partition("\n")[2], encoding="utf-8")
        self.assertEqual(self.ran("low", TOP=str(self.top))[0], 0)
        with self.with_toolchain():
            self.assertEqual(tried.due(self.top)["low"], tried.CHANGED["own"])

    def test_a_copy_is_gone_afterwards(self) -> None:
        with COPIED(["low"]) as top:
            self.assertTrue((top / "crates/low/src/lib.rt").is_file())
        self.assertFalse(top.exists())


if __name__ == "__main__":
    unittest.main()
