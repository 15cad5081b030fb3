"""A build without proof: what it takes out of a module, which attributes it finds, and what stops it."""
from __future__ import annotations

import os
import subprocess
import sys

from runs import TOOLS, Tools
from unproved_build import attributes_in, without_checks

UNPROVED = os.path.join(os.path.dirname(TOOLS), "bench", "unproved")

SOURCE = """\
impl<S: Side> Fore<S> {
    #[inline(always)]
    pub(crate) fn ask(&mut self) -> Ask
        ensures { result }
    {
    }

    fn plain(&self) {}
}

/// Of no type.
#[inline(never)]
fn apart() {}
"""

MODULE = """\
define internal void @"foreground::fore::Fore::ask::<#12ab>"(ptr noundef %a0) #0 {
start:
  call void @llvm.memset.p0.i64(ptr %r0, i8 -86, i64 20, i1 false)
  call void @llvm.memset.p0.i64(ptr %r0, i8 0, i64 20, i1 false)
  call void @"rattle-llvm-checks::Alignment"(i8 %r21)
  call void @llvm.trap()
  unreachable
next:
  ret void
}
define internal void @"foreground::apart"() #0 {
define internal void @"foreground::fore::Fore::plain"() #0 {
attributes #0 = { nounwind sanitize_address "frame-pointer"="all" "probe-stack"="inline-asm" }
"""


class UnprovedTest(Tools):
    def test_checks_are_left_out_and_attributes_are_given(self) -> None:
        known = attributes_in(self.write("fore.rt", SOURCE), "foreground")
        self.assertEqual(known, {("foreground", "Fore", "ask"): 91, ("foreground", None, "apart"): 92})
        text = without_checks(MODULE, known)
        self.assertEqual(
            [line for line in text.splitlines() if line.startswith(("define", "  "))],
            [
                'define internal void @"foreground::fore::Fore::ask::<#12ab>"(ptr noundef %a0) #91 {',
                "  call void @llvm.memset.p0.i64(ptr %r0, i8 0, i64 20, i1 false)",
                "  unreachable",
                "  ret void",
                'define internal void @"foreground::apart"() #92 {',
                'define internal void @"foreground::fore::Fore::plain"() #90 {',
            ],
        )
        self.assertNotIn("sanitize", text)
        self.assertIn('attributes #91 = { nounwind alwaysinline "stack-probe-size"="3072"', text)

    def test_what_stops_it(self) -> None:
        for words, said in (
            ([], "usage: bench/unproved OUT [CRATE]\n"),
            (["out"], "unproved: rt: the Rattle kit's command is not found: it compiles the program\n"),
        ):
            with self.subTest(words=words):
                done = subprocess.run([sys.executable, UNPROVED, *words], cwd=self.folder, env={"PATH": self.folder}, capture_output=True, text=True)
                self.assertEqual((done.returncode == 0, done.stdout, done.stderr), (False, "", said))
