"""tools/more-must-fail: the kit is asked to try what the gate leaves out, and no other edit; a name without such edits is told."""
from __future__ import annotations

import os
import subprocess

from runs import TOOLS, Tools

TOP = os.path.dirname(TOOLS)
TOOL = os.path.join(TOOLS, "more-must-fail")
LEFT_OUT = "more-must-fail"
# says the words that it is given, and the edits that stand where the kit looks for them; its status is 5
STAND_IN = """#!/bin/sh
[ "$1" = --help ] && {{ echo '{help}' >&2; exit 2; }}
[ -f crates.txt ] && [ -f HANDLES ] && [ -f crates/beam/src/lib.rt ] || exit 6
echo "$@"
ls -d crates/*/*must-fail/*
exit 5
"""


def left_out() -> dict[str, list[str]]:
    """The edits that the gate leaves out, by their crates."""
    folders = {it: os.path.join(TOP, "crates", it, LEFT_OUT) for it in sorted(os.listdir(os.path.join(TOP, "crates")))}
    return {name: sorted(os.listdir(it)) for name, it in folders.items() if os.path.isdir(it)}


class MoreMustFailTest(Tools):
    def run_tool(self, *names: str, help: str = "  rt ci NAME..  does so") -> subprocess.CompletedProcess[str]:
        os.chmod(self.write("bin/rt", STAND_IN.format(help=help)), 0o755)
        path = self.place("bin") + os.pathsep + os.environ["PATH"]
        return subprocess.run([TOOL, *names], capture_output=True, text=True, env=os.environ | {"PATH": path})

    def tried(self, crates: dict[str, list[str]]) -> list[str]:
        return sorted(f"crates/{name}/must-fail/{edit}" for name, edits in crates.items() for edit in edits)

    def test_all(self) -> None:
        done, there = self.run_tool(), left_out()
        said = done.stdout.splitlines()
        self.assertEqual((said[0], sorted(said[1:])), (" ".join(["ci", *there]), self.tried(there)))
        self.assertEqual(done.returncode, 5)

    def test_of_some_crates(self) -> None:
        names = list(left_out())[:2]
        done = self.run_tool(*names)
        said = done.stdout.splitlines()
        self.assertEqual((said[0], sorted(said[1:])), (" ".join(["ci", *names]), self.tried({it: left_out()[it] for it in names})))

    def test_kit_without_named_runs(self) -> None:
        name = list(left_out())[0]
        self.assertEqual(self.run_tool(name, help="rt ci").stdout.splitlines()[0], f"must-fail {name}")

    def test_name_without_such_edits(self) -> None:
        done = self.run_tool("crate")
        said = f"more-must-fail: crate: is no crate that has a folder {LEFT_OUT}\n"
        self.assertEqual((done.returncode, done.stdout, done.stderr), (2, "", said))

    def test_an_edit_stands_in_one_folder_and_can_be_applied(self) -> None:
        for name, edits in left_out().items():
            folder = os.path.join(TOP, "crates", name)
            tried = os.path.join(folder, "must-fail")
            self.assertFalse(set(edits) & set(os.listdir(tried) if os.path.isdir(tried) else ()), name)
            for edit in edits:
                with self.subTest(crate=name, edit=edit):
                    self.check_edit(folder, os.path.join(folder, LEFT_OUT, edit))

    def check_edit(self, folder: str, edit: str) -> None:
        """Each `old` text stands once in the file that the edit names, as the texts before it have left that file."""
        texts: dict[str, str] = {}
        place = old = ""
        with open(edit, encoding="utf-8") as file:
            lines = file.read().splitlines()
        for line in lines:
            kind, _, rest = line.partition(": ")
            if kind == "file":
                place = os.path.join(folder, rest)
                with open(place, encoding="utf-8") as file:
                    texts.setdefault(place, file.read())
            elif kind == "old":
                old = rest
                self.assertEqual(texts[place].count(old), 1)
            elif line.startswith("new:"):
                texts[place] = texts[place].replace(old, line[len("new: ") :])
