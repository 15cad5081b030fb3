"""tools/definitions: the table in the documents is that of the tree, and a contract leads to the files that it names."""
from __future__ import annotations

import glob
import os
import shutil
import subprocess
import tempfile
import unittest

from runs import TOOLS

TOP = os.path.dirname(TOOLS)
TOOL = os.path.join(TOOLS, "definitions")


def run(*words: str) -> subprocess.CompletedProcess[str]:
    return subprocess.run([TOOL, *words], capture_output=True, text=True)


class DefinitionsTest(unittest.TestCase):
    def test_table_is_of_this_tree(self) -> None:
        self.assertEqual(run("--ask").returncode, 0, "docs/proofs.md wants tools/definitions")

    def test_another_table_is_told(self) -> None:
        with tempfile.TemporaryDirectory() as top:
            shutil.copytree(TOOLS, os.path.join(top, "tools"), ignore=shutil.ignore_patterns("tests"))
            for name in ("crates", "crates.txt"):
                os.symlink(os.path.join(TOP, name), os.path.join(top, name))
            os.mkdir(os.path.join(top, "docs"))
            os.symlink(os.path.join(TOP, "docs", "calls.md"), os.path.join(top, "docs", "calls.md"))
            with open(os.path.join(TOP, "docs", "proofs.md"), encoding="utf-8") as page:
                text = page.read()
            for was, status in (("| `collisions` |", 0), ("| `collision` |", 1)):
                with open(os.path.join(top, "docs", "proofs.md"), "w", encoding="utf-8") as page:
                    page.write(text.replace("| `collisions` |", was))
                asked = subprocess.run([os.path.join(top, "tools", "definitions"), "--ask"], capture_output=True, text=True)
                self.assertEqual((asked.returncode, asked.stdout, asked.stderr), (status, "", ""))

    def test_files_of_a_crate(self) -> None:
        """`clx` of `collisions` says its result by one definition,."""
        said = run("collisions").stdout.splitlines()
        self.assertEqual(len(said), 2)
        self.assertTrue(said[0].endswith(" crates/collisions/specs/Collision.antt"))
        self.assertRegex(said[1], r"^ *\d+ lines in \d+ definitions for collisions$")
        self.assertEqual(said[0].split()[0], said[1].split()[0])

    def test_files_of_a_call(self) -> None:
        """A call leads to no more than its crate, and the first step of the beam to the beam's places."""
        call, crate = (run(name).stdout for name in ("beam::advance_in", "beam"))
        self.assertIn("crates/serial_model/specs/Beam.antt", call)
        self.assertNotIn("crates/serial_model/specs/Picture.antt", call)
        self.assertLessEqual({line.split()[1] for line in call.splitlines()[:-1]}, {line.split()[1] for line in crate.splitlines()[:-1]})

    def test_what_no_contract_leads_to(self) -> None:
        said = run("--unread").stdout.splitlines()
        self.assertIn("crates/m68k_opcodes/specs/code/Lines.antt", said)
        self.assertNotIn("crates/serial_model/specs/Tick.antt", said)

    def test_private_definitions_stand_apart(self) -> None:
        """A file of specs/ stands in its folder code/ exactly where no public contract leads to it; tests' own have no such folder."""
        unread = {path for path in run("--unread").stdout.splitlines() if "_tests/" not in path and "/test_" not in path}
        private = {os.path.relpath(path, TOP) for path in glob.glob(os.path.join(TOP, "crates", "*", "specs", "code", "*.antt"))}
        self.assertEqual(sorted(unread ^ private), [])

    def test_programs_lead_to_no_crate_that_makes_the_machine_run(self) -> None:
        said = run("--apart")
        self.assertEqual((said.returncode, said.stdout), (0, ""))

    def test_definitions_of_a_call(self) -> None:
        """One definition of a file counts without the others: the end of a line does without the order of the places."""
        said = run("--names", "beam::advance_in").stdout.splitlines()
        self.assertIn("crates/serial_model/specs/Beam.antt: next_place", said)
        self.assertNotIn("crates/serial_model/specs/Beam.antt: is_line_start", said)

    def test_no_such_crate(self) -> None:
        said = run("no_such_crate")
        self.assertEqual((said.returncode, said.stdout), (1, ""))
        self.assertEqual(said.stderr, "tools/definitions: no_such_crate: there is no such crate\n")


if __name__ == "__main__":
    unittest.main()
