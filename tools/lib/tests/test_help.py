"""The page of all commands: whoever asks for it gets it, and each command and tool stands in it."""
from __future__ import annotations

import os
import re
import shutil
import subprocess

from runs import TOOLS, Tools

TOP = os.path.dirname(TOOLS)


class HelpTest(Tools):
    def page(self) -> list[str]:
        done = self.run_tool("help")
        self.assertEqual((done.returncode, done.stderr), (0, ""))
        return done.stdout.splitlines()

    def test_wrappers(self) -> None:
        wanted = self.page()
        for wrapper in ("ocs", "ocs-slots"):
            for words in ([], ["help"], ["--help"], ["--version"]):
                with self.subTest(wrapper=wrapper, words=words):
                    done = subprocess.run([os.path.join(TOP, wrapper), *words], cwd=self.folder, capture_output=True, text=True)
                    self.assertEqual((done.returncode, done.stdout.splitlines(), done.stderr), (0, wanted, ""))

    def test_other_words_are_the_programs(self) -> None:
        """They are not looked at: here nothing stands that builds the program."""
        for wrapper in ("ocs", "ocs-slots"):
            shutil.copy(os.path.join(TOP, wrapper), self.folder)
            self.write("tools/build", "#!/bin/sh\nexit 1\n")
            os.chmod(self.place("tools/build"), 0o755)
            for words in (["run"], ["help", "run"], ["-h"]):
                done = subprocess.run([self.place(wrapper), *words], capture_output=True, text=True)
                self.assertEqual((done.returncode, done.stdout, done.stderr), (1, "", ""), words)

    def test_commands_are_those_of_the_program(self) -> None:
        """Each usage of the program's words, and `sound` and `disk` in the first ten lines."""
        said = "\n".join(self.page())
        with open(os.path.join(TOP, "docs", "formats.md"), encoding="utf-8") as file:
            usages = re.findall(r"`usage:\s+(ocs(?:-slots)?\s[^`]+)`", file.read())
        self.assertGreater(len(usages), 3)
        for usage in usages:
            self.assertIn(f"  {' '.join(usage.split())} ", said)
        first = "\n".join(self.page()[:10])
        self.assertIn("ocs sound ", first)
        self.assertIn("ocs disk ", first)

    def test_tools(self) -> None:
        """Each tool and bench has a line that says something."""
        lines = {line.split()[0]: line.split()[1:] for line in self.page() if line.startswith(("  tools/", "  bench/"))}
        there = [f"{folder}/{name}" for folder in ("tools", "bench") for name in os.listdir(os.path.join(TOP, folder))]
        runs = {name for name in there if os.path.isfile(os.path.join(TOP, name)) and os.access(os.path.join(TOP, name), os.X_OK)}
        self.assertEqual(set(lines), runs)
        self.assertEqual([name for name, words in lines.items() if len(words) < 5], [])
