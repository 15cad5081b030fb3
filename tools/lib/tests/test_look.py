"""Traces, the table of registers, and the page of a run."""
from __future__ import annotations

import json
import os
import re

from faults import BadFile
from registers import all_registers
from runs import TRACE, Tools, frame
from trace import read_trace


class TraceTest(Tools):
    def test_lines_of_a_range(self) -> None:
        trace = read_trace(self.write("t", TRACE), range(1, 2))
        self.assertEqual([(line.number, line.text) for line in trace.lines], [(5, "1 10 20 W 182 00f0 C")])
        self.assertEqual([(line.number, line.beam, line.written) for line in trace.earlier], [(2, (0, 44, 100), 0x180)])
        self.assertEqual((trace.count, trace.last_frame, trace.cut_short), (5, 1, ""))

    def test_cut_short(self) -> None:
        trace = read_trace(self.write("t", TRACE[:-4]), range(2))
        self.assertEqual(trace.cut_short, "is cut short in line 5: '1 10 20 W 182 00f'")
        self.assertEqual(len(trace.lines), 4)

    def test_faults(self) -> None:
        cases = {
            "P6\n720 286\n": "is not a trace: line 1 is 'P6'",
            "0 0 0 W 180 0f00 X\n": "line 1 is '0 0 0 W 180 0f00 X'",
            "0 0 0 W 181 0f00 S\n": "line 1 names a place or register that is not",
            "0 313 0 I 3\n": "line 1 names a place or register that is not",
            "0 5 0 I 3\n0 4 9 I 3\n": "line 2 is earlier than the one before it",
            "hello": "is not a trace: line 1 is 'hello'",
            TRACE + "0" * 5000: "is not a trace: line 6 is",
        }
        for text, said in cases.items():
            with self.subTest(text=text[:20]), self.assertRaisesRegex(BadFile, re.escape(said)):
                read_trace(self.write("t", text), range(1))


class RegistersTest(Tools):
    def test_table(self) -> None:
        names = {register.offset: register.name for register in all_registers()}
        self.assertEqual(len(names), len(all_registers()))
        wanted = {0x002: "DMACONR", 0x00E: "CLXDAT", 0x040: "BLTCON0", 0x048: "BLTCPTH", 0x056: "BLTDPTL"}
        wanted |= {0x064: "BLTAMOD", 0x074: "BLTADAT", 0x086: "COP2LCL", 0x096: "DMACON", 0x0F6: "BPL6PTL"}
        wanted |= {0x11A: "BPL6DAT", 0x13E: "SPR7PTL", 0x140: "SPR0POS", 0x17E: "SPR7DATB", 0x1BE: "COLOR31"}
        for offset, name in wanted.items():
            self.assertEqual(names[offset], name)

    def test_fields_do_not_overlap(self) -> None:
        for register in all_registers():
            bits = [bit for high, low, _ in register.fields for bit in range(low, high + 1)]
            self.assertEqual(len(bits), len(set(bits)), register.name)
            self.assertTrue(all(0 <= bit < 16 for bit in bits), register.name)


class LookTest(Tools):
    def page(self, *words: str) -> tuple[dict, str]:
        """The data of a page, and its text."""
        self.run_tool("look", *words, "-o", "page.html").check_returncode()
        with open(self.place("page.html"), encoding="utf-8") as file:
            text = file.read()
        return json.loads(re.search(r'id="data">(.*?)</script>', text).group(1)), text

    def test_page(self) -> None:
        self.write_run("run", frame({}) * 2)
        data, text = self.page("run/frames", "run/trace")
        self.assertEqual([(one["number"], one["rows"]) for one in data["frames"]], [(0, 286), (1, 286)])
        self.assertIn(f'id="trace">\n{TRACE}</script>', text)
        self.assertNotRegex(text, r"(src|href)=\"(?!data:)")
        self.assertNotIn("{{", text)

    def test_names_of_image_and_script(self) -> None:
        """They stand in the commands of the page, as a shell reads them."""
        self.write_run("run", frame({}))
        self.write("an image", "")
        self.write("a<b>", "")
        self.assertEqual(self.page("run/frames", "run/trace")[0]["inputs"], "IMAGE SCRIPT")
        data, text = self.page("run/frames", "run/trace", "an image", "a<b>")
        self.assertEqual(data["inputs"], "'an image' 'a<b>'")
        self.assertNotIn("a<b>", text)
        self.assertEqual(self.refused("look", "run/frames", "run/trace", "an image", "none"), "look: none: no such file or directory")
        self.assertIn("is one of the files of the run", self.refused("look", "run/frames", "run/trace", "an image", "a<b>", "-o", "a<b>"))

    def test_range(self) -> None:
        self.write_run("run", frame({}) * 3)
        data, text = self.page("run/frames", "run/trace", "--frames", "1")
        self.assertEqual((data["total"], data["firstLine"], len(data["frames"])), (3, 5, 1))
        self.assertIn('id="earlier">\n2 0 44 100 W 180 000f C\n</script>', text)
        self.assertIn("frames 1 to 1 of 3", data["notes"][0])

    def test_names_cannot_end_an_element(self) -> None:
        self.write("a<b>&c/frames", frame({}))
        self.write("t</script>", "")
        _, text = self.page("a<b>&c/frames", "t</script>")
        self.assertIn("<title>a&lt;b&gt;&amp;c: a run of ocs</title>", text)
        self.assertEqual(text.count("</script>"), 4)

    def test_nothing_is_overwritten(self) -> None:
        self.write_run("run", frame({}))
        self.assertEqual(self.run_tool("look", "run/frames", "run/trace").stdout, "look.html\n")
        self.assertIn("look.html: is there already", self.refused("look", "run/frames", "run/trace"))
        said = self.refused("look", "run/frames", "run/trace", "-o", "run/trace")
        self.assertIn("is one of the files of the run", said)
        self.assertEqual(os.path.getsize(self.place("run/trace")), len(TRACE))
        self.assertEqual(self.refused("look", "run", "run/trace"), "look: run: is a directory")
        self.assertIn("'2-1' ends before it begins", self.refused("look", "run/frames", "run/trace", "--frames", "2-1"))
