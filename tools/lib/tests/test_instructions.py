"""tools/instructions-check: what it works out is what is kept, and it tells a run that differs."""
from __future__ import annotations

import os

from runs import TOOLS, Tools

EXAMPLE = os.path.join(os.path.dirname(TOOLS), "examples", "instructions")
TOOL = "instructions-check"


def kept(name: str) -> bytes:
    with open(os.path.join(EXAMPLE, name), "rb") as file:
        return file.read()


class Instructions(Tools):
    def compared(self, memory: bytes, trace: bytes) -> tuple[int, str]:
        """The status and the words of a comparison with a run that left these files."""
        names = self.write("memory", memory.ljust(524288, b"\0")), self.write("trace", trace)
        done = self.run_tool(TOOL, "--compare", *names)
        return done.returncode, done.stdout

    def test_kept_files(self) -> None:
        self.assertEqual(self.run_tool(TOOL, "--results").stdout, kept("results").decode())
        self.assertEqual(self.run_tool(TOOL, "--trace").stdout, kept("trace.expected").decode())
        self.run_tool(TOOL, "--memory", "memory")
        with open(self.place("memory"), "rb") as file:
            self.assertEqual(file.read(), kept("memory.expected"))

    def test_comparison(self) -> None:
        memory, trace = kept("memory.expected"), kept("trace.expected")
        self.assertEqual(self.compared(memory, trace), (0, "as worked out\n"))
        wrong = bytearray(memory)
        wrong[0x20D5] ^= 1
        status, said = self.compared(bytes(wrong), trace.replace(b" I 3", b" I 2"))
        self.assertEqual(status, 1)
        self.assertIn("memory: at 020d4 is 7ffe, and not 7fff", said)
        self.assertIn("addi.l", said)
        self.assertIn("'0 134 50 I 2', and not '0 134 50 I 3'", said)

    def test_words(self) -> None:
        self.assertIn("usage", self.refused(TOOL, "--compare"))
        self.assertIn("no such file", self.refused(TOOL, "--compare", "memory", "trace"))
