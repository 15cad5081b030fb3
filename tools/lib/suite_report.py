"""What a suite tells at its end: a page with the first frame that differs of each case, and JUnit XML."""
from __future__ import annotations

import os
import re

from faults import BadFile, plural
from files import write_whole
from page_text import escaped, fill, json_text
from suite_cases import Case
from suite_run import DIFFERS, FAILED, GOOD, NEW, Result, Suite, expected, golden_of

PAGE, XML = "report.html", "junit.xml"
UNWRITABLE = re.compile("[\x00-\x08\x0b\x0c\x0e-\x1f\ud800-\udfff\ufffe\uffff]")
# cases whose pictures the page holds
MOST_PICTURES = 100
# what stands in the page of a comparison until its case is shown
MARKS = {"title": "@@title@@", "left": "golden", "right": "@@title@@", "data": "@@data@@"}


def write_reports(suite: Suite, cases: list[Case], results: list[Result]) -> list[str]:
    """Writes both; gives their places."""
    texts = {PAGE: page(suite, cases, results), XML: junit(suite, results)}
    for name, text in texts.items():
        write_whole(os.path.join(suite.out, name), text.encode("utf-8", "backslashreplace"))
    return [os.path.join(suite.out, name) for name in texts]


def page(suite: Suite, cases: list[Case], results: list[Result]) -> str:
    """The page's text."""
    rows, pictures = [], 0
    for case, result in zip(cases, results):
        shown = None
        if result.verdict == DIFFERS and pictures < MOST_PICTURES:
            shown = shown_of(suite, case, result)
            pictures += 1
        rows.append({
            "name": result.name, "verdict": result.verdict, "good": result.verdict in GOOD,
            "said": result.said, "seconds": round(result.seconds, 3), "shown": shown,
        })
    differing = sum(result.verdict == DIFFERS for result in results)
    note = f"Of {plural(differing, 'case')} that differ the first {MOST_PICTURES} are shown." if differing > pictures else ""
    data = {"cases": rows, "page": comparing_page() if pictures else ""}
    bad = sum(result.verdict not in GOOD for result in results)
    places = {
        "title": escaped(f"{os.path.basename(os.path.dirname(suite.out))}: {plural(len(results), 'case')}"),
        "counts": escaped(f"{len(results) - bad:,} of {plural(len(results), 'case')} pass"),
        "verdict": "good" if not bad else "bad",
        "note": escaped(note),
        "data": json_text(data),
    }
    return fill("suite.html", ("common.css", "suite.css"), ("suite.js",), places)


def comparing_page() -> str:
    """The page of a comparison, into which a case's data are put when it is looked at."""
    from compare_page import fill_page

    return fill_page(**MARKS)


def shown_of(suite: Suite, case: Case, result: Result) -> dict[str, object] | None:
    """What the page of a case's comparison reads; None where its files cannot be compared."""
    from suite_differences import comparison

    try:
        golden = golden_of(case)
        if golden is None:
            return None
        return comparison(expected(suite, case, golden, result), result, suite.place(case))
    except (BadFile, OSError):
        return None


def junit(suite: Suite, results: list[Result]) -> str:
    """The results as JUnit XML, which builders of programs read."""
    failures = sum(result.verdict in (DIFFERS, NEW) for result in results)
    errors = sum(result.verdict == FAILED for result in results)
    seconds = sum(result.seconds for result in results)
    name = quoted_value(os.path.basename(os.path.dirname(suite.out)))
    counts = f'tests="{len(results)}" failures="{failures}" errors="{errors}" time="{seconds:.3f}"'
    lines = ['<?xml version="1.0" encoding="UTF-8"?>', f"<testsuites {counts}>", f"<testsuite name={name} {counts}>"]
    for result in results:
        group, _, own = result.name.rpartition("/")
        words = f'classname={quoted_value(group or "cases")} name={quoted_value(own)} time="{result.seconds:.3f}"'
        lines += [f"<testcase {words}/>"] if result.verdict in GOOD else [f"<testcase {words}>", *told(result), "</testcase>"]
    return "\n".join([*lines, "</testsuite>", "</testsuites>"]) + "\n"


def told(result: Result) -> list[str]:
    """Why a case did not pass."""
    kind = "error" if result.verdict == FAILED else "failure"
    first = quoted_value(result.said[0] if result.said else result.verdict)
    text = escaped(clean("\n".join(result.said)))
    return [f'<{kind} type="{result.verdict}" message={first}>{text}</{kind}>']


def quoted_value(text: str) -> str:
    """A text as the value of an attribute."""
    return f'"{escaped(clean(text))}"'


def clean(text: str) -> str:
    """A text without the characters that XML cannot hold."""
    return UNWRITABLE.sub("\ufffd", text)
