"""The plan of a suite, for Ninja or Snakemake: a step for each part of the cases, which takes some seconds and runs of them those
whose files or whose program changed, and one for the report."""
from __future__ import annotations

import argparse
import math
import os
import shlex
from typing import Callable, NamedTuple

from faults import BadFile
from files import write_whole
from suite_cases import Case, find_cases, part_of
from suite_report import PAGE, XML
from suite_run import RESULT, Suite, read_result

# seconds of a step, and those of a case that has not been run
SECONDS, USUAL = 3.0, 0.03
SNAKEFILE = ".smk"
NINJA = """# Written by tools/suite --plan: `ninja -f {plan}` runs the cases whose files or whose program changed, and reports.
ninja_required_version = 1.5
rule part
  command = {suite} --jobs 1 --only-run --only-changed --shard $part -- {folder}
  description = part $part
rule report
  command = {suite} --report --shard {shard} -- {folder}
  description = report
rule plan
  command = {suite} --plan {quoted_plan} --shard {shard} -- {folder}
  description = plan
  generator = 1
"""
SNAKEMAKE = """# Written by tools/suite --plan: `snakemake --snakefile {plan} --cores all` runs the cases whose files or whose program changed,
# and reports.
import sys
sys.path.insert(0, {lib!r})
from suite_plan import files_of_part

rule report:
    input: expand({done!r}, part=range({first}, {parts} + 1, {step}))
    shell: {report!r}

rule part:
    input: {program!r}, lambda wildcards: files_of_part({folder!r}, {out!r}, int(wildcards.part), {parts})
    output: touch({done!r})
    shell: {run!r}
"""


class Part(NamedTuple):
    """A part of all cases of a folder, as `--shard` has it."""

    part: int
    parts: int

    def divided(self, count: int) -> list[Part]:
        """So many parts of this one."""
        return [Part(self.part + self.parts * number, self.parts * count) for number in range(count)]

    def text(self) -> str:
        return f"{self.part}/{self.parts}"


def changed(suite: Suite, cases: list[Case]) -> list[Case]:
    """The cases whose files or whose program are newer than their results. The results of the others get the time of now, so that
    each is newer than all files of its part.
    """
    found, program = [], os.stat(suite.program).st_mtime_ns
    for case in cases:
        result = suite.place(case, RESULT)
        try:
            is_newer = os.stat(result).st_mtime_ns < max(program, *(os.stat(place).st_mtime_ns for place in case.inputs()))
        except OSError:
            is_newer = True
        if is_newer:
            found.append(case)
        else:
            os.utime(result)
    return found


def count_of_parts(suite: Suite, cases: list[Case]) -> int:
    """How many parts: one for each processor at least, and more where they would take longer than some seconds."""
    results = [read_result(suite, case) for case in cases]
    seconds = sum(USUAL if result is None else result.seconds for result in results)
    return min(len(cases), max(len(os.sched_getaffinity(0)), math.ceil(seconds / SECONDS)))


def files_of_part(folder: str, out: str, part: int, parts: int) -> list[str]:
    """The files of the cases of a part."""
    return [place for case in part_of(find_cases(folder, out), part, parts) for place in case.inputs()]


def path(place: str) -> str:
    """A path as Ninja's build lines have it."""
    if "\n" in place:
        raise BadFile(place, "has a line's end in its name, which Ninja cannot name")
    return place.replace("$", "$$").replace(" ", "$ ").replace(":", "$:")


def value(text: str) -> str:
    """A word of a command, for the shell and for Ninja."""
    return shlex.quote(text).replace("$", "$$")


def nameable(place: str) -> str:
    """A path that Snakemake can name."""
    if "{" in place or "}" in place:
        raise BadFile(place, "has a brace in its name, which Snakemake cannot name")
    return place


def suite_command(words: argparse.Namespace, suite: Suite, quoted: Callable[[str], str]) -> str:
    """The words of the suite with those that each step has."""
    tool = os.path.join(os.path.dirname(os.path.dirname(os.path.realpath(__file__))), "suite")
    same = ["env", f"OCS={suite.program}", tool, "--out", suite.out, "--limit", str(words.limit), "--store", str(words.store)]
    return " ".join(map(quoted, same))


def ninja_plan(words: argparse.Namespace, suite: Suite, cases: list[Case], count: int) -> str:
    """The plan for Ninja."""
    folder, plan, shard = os.path.abspath(words.folder), os.path.abspath(words.plan), Part(*words.shard)
    named = {"suite": suite_command(words, suite, value), "folder": value(folder), "quoted_plan": value(plan), "shard": shard.text()}
    text = NINJA.format(plan=plan, **named)
    for number, part in enumerate(shard.divided(count), 1):
        own = part_of(cases, number, count)
        results = " ".join(path(suite.place(case, RESULT)) for case in own)
        files = " ".join(path(place) for case in own for place in case.inputs())
        text += f"build {results}: part {files} | {path(suite.program)}\n  part = {part.text()}\n"
    reports = " ".join(path(os.path.join(suite.out, name)) for name in (PAGE, XML))
    results = " ".join(path(suite.place(case, RESULT)) for case in cases)
    text += f"build {reports}: report {results}\n"
    folders = " ".join(path(place) for place in sorted({folder, *(above(case, folder) for case in cases)}))
    # Ninja makes its own plan again only by the name that it was given for it
    text += f"build {path(words.plan)}: plan | {folders}\n"
    return text + f"build cases: phony {results}\ndefault {reports}\n"


def above(case: Case, folder: str) -> str:
    """The folder that a case is in, whose change may be another case."""
    return os.path.dirname(os.path.join(folder, case.name))


def snakemake_plan(words: argparse.Namespace, suite: Suite, cases: list[Case], count: int) -> str:
    """The plan for Snakemake, which finds the cases anew each time that it is read."""
    folder, shard = os.path.abspath(words.folder), Part(*words.shard)
    for place in (folder, suite.out, suite.program, *(place for case in cases for place in case.inputs())):
        nameable(place)
    first, command = shard.divided(count)[0], suite_command(words, suite, shlex.quote)
    end = f"-- {shlex.quote(folder)}"
    return SNAKEMAKE.format(
        plan=os.path.abspath(words.plan), lib=os.path.dirname(os.path.realpath(__file__)), folder=folder, out=suite.out,
        program=suite.program, done=f"{suite.out}/parts/{{part}}-of-{first.parts}",
        first=first.part, parts=first.parts, step=shard.parts, report=f"{command} --report --shard {shard.text()} {end}",
        run=f"{command} --jobs 1 --only-run --only-changed --shard {{wildcards.part}}/{first.parts} {end}",
    )


def write_plan(words: argparse.Namespace, suite: Suite, cases: list[Case]) -> None:
    """Writes the file that the words name."""
    count, plan = count_of_parts(suite, cases), os.path.abspath(words.plan)
    text = snakemake_plan(words, suite, cases, count) if plan.endswith(SNAKEFILE) else ninja_plan(words, suite, cases, count)
    os.makedirs(suite.out, exist_ok=True)
    write_whole(plan, text.encode("utf-8", "surrogateescape"))
    # later than its folder, which the plan may stand in
    os.utime(plan)
