"""The documents: links lead somewhere, names in backquotes are there, and sentences are short and plain."""
from __future__ import annotations

import functools
import glob
import os
import re
import unittest
from typing import Iterator

from runs import TOOLS

TOP = os.path.dirname(TOOLS)
FOLDERS = ("", "docs", "examples", "bench")
# made by tools/definitions of what each public call says of itself
MADE = os.path.join("docs", "calls.md")
LINK = re.compile(r"\]\(([^)\s#]*)(?:#([^)\s]+))?\)")
MOST_WORDS = 40
MOST_COLUMNS = 130
NOT_PLAIN = ("want of memory", "by reckoning", "in a hundred", "nothing hangs")
# a thing stands behind another in a picture; of time it is "after"
IN_A_PICTURE = re.compile(r"sprite|playfield|pixel|backdrop|front|layer", re.I)
QUOTED = re.compile(r"`([^`\n]+)`")
ITEM = re.compile(r"^\s*(?:[-*]|\d+\.) ")
SENTENCE_END = re.compile(r"(?<=[.!?])[)*\"']*\s+(?=[A-Z0-9`*(\[\"'])")
PLACES = ("tools", "bench", "examples", "docs", "crates", ".ci")


def documents() -> list[str]:
    """The documents, by their names from the top."""
    return [
        os.path.join(folder, name)
        for folder in FOLDERS
        for name in sorted(os.listdir(os.path.join(TOP, folder)))
        if name.endswith(".md")
    ]


def written() -> list[str]:
    """Those that people write, in short sentences."""
    return [name for name in documents() if name != MADE]


def read(name: str) -> str:
    """The text of a document."""
    with open(os.path.join(TOP, name), encoding="utf-8") as file:
        return file.read()


def anchors(text: str) -> set[str]:
    """The names of a document's headings, as a link has them."""
    headings = re.findall(r"^#+ (.*)$", text, re.M)
    return {re.sub(r"[^\w\- ]", "", heading.lower()).replace(" ", "-") for heading in headings}


def prose_lines(text: str) -> Iterator[str]:
    """The lines outside code; what is none is an empty line."""
    fenced = False
    for line in text.split("\n"):
        if line.startswith("```"):
            fenced = not fenced
            yield ""
        else:
            yield "" if fenced or line.startswith("    ") else line


def paragraphs(text: str) -> Iterator[str]:
    """The paragraphs and list items, each as one line; neither tables nor headings nor pictures are any."""
    held: list[str] = []
    for line in prose_lines(text):
        apart = not line.strip() or line.startswith(("|", "#", "<", "!"))
        if held and (apart or ITEM.match(line)):
            yield " ".join(held)
            held = []
        if not apart:
            held.append(line.strip())
    if held:
        yield " ".join(held)


def sentences(paragraph: str) -> list[str]:
    """The sentences of a paragraph; a name in backquotes and the target of a link are one word."""
    plain = QUOTED.sub("Name", re.sub(r"\]\([^)]*\)", "]", ITEM.sub("", paragraph, count=1)))
    return SENTENCE_END.split(plain)


def words(sentence: str) -> int:
    """How many words it has: what has no letter and no digit is none."""
    return sum(1 for word in sentence.split() if re.search(r"\w", word))


@functools.lru_cache(maxsize=None)
def known_words() -> frozenset[str]:
    """Every word of the sources of program and tools, and the names of its crates."""
    found: set[str] = set(os.listdir(os.path.join(TOP, "crates")))
    for place in ("crates/*/src", "crates/*/specs", "crates/*/proofs", "tools", "bench", "examples"):
        for folder in glob.glob(os.path.join(TOP, place)):
            for path in source_files(folder):
                with open(path, encoding="utf-8", errors="ignore") as file:
                    found.update(re.findall(r"\w+", file.read()))
                found.update(re.findall(r"\w+", os.path.basename(path)))
    return frozenset(found)


def source_files(folder: str) -> Iterator[str]:
    """The sources below a folder: files of code, and commands, which have no ending."""
    for here, folders, names in os.walk(folder):
        folders[:] = [name for name in folders if name not in ("out", "__pycache__")]
        for name in names:
            if name.endswith((".rt", ".antt", ".py", ".js", ".s", ".c", ".edit")) or "." not in name:
                yield os.path.join(here, name)


def is_there(name: str) -> bool:
    """Whether a path of the repository is there: NAME stands for any name, and definitions have no ending."""
    pattern = os.path.join(TOP, re.sub(r"[A-Z]{2,}", "*", name) if "NAME" in name else name)
    return any(glob.glob(pattern + ending) for ending in ("", ".antt", ".rt"))


def path_is_wrong(word: str) -> bool:
    """Whether a word is a path of the repository, and not there; what is made at `out` is none."""
    parts = word.rstrip("/").split("/")
    if len(parts) < 2 or "out" in parts or not re.fullmatch(r"[\w.*\-/]+", word):
        return False
    if parts[0] in PLACES:
        return not is_there(word)
    if parts[0] and os.path.isdir(os.path.join(TOP, "crates", parts[0])):
        return not is_there(os.path.join("crates", word))
    return parts[0] == "." and not is_there(word)


def name_is_wrong(word: str) -> bool:
    """Whether what is quoted is a name of code or of a crate, as `run_to` or `Fore::advance`, and nowhere."""
    if not re.fullmatch(r"\w+(::\w+)*", word) or not re.search(r"[a-z]_[a-z]|::|[a-z][A-Z]", word):
        return False
    return any(part not in known_words() for part in word.split("::"))


class DocumentsTest(unittest.TestCase):
    """What holds of every document."""

    def test_links(self) -> None:
        """A link to a file has its file, and one to a heading its heading."""
        for name in documents():
            for link, anchor in LINK.findall(read(name)):
                if "://" in link:
                    continue
                target = os.path.normpath(os.path.join(os.path.dirname(name), link)) if link else name
                with self.subTest(document=name, link=link, anchor=anchor):
                    self.assertTrue(os.path.exists(os.path.join(TOP, target)))
                    if anchor:
                        self.assertIn(anchor, anchors(read(target)))

    def test_version(self) -> None:
        """The README names the archive of the version that CHANGELOG.md begins with."""
        version = re.search(r"^## (\d+\.\d+\.\d+)$", read("CHANGELOG.md"), re.M)
        assert version
        named = set(re.findall(r"ocs-([0-9.]+)-linux", read("README.md")))
        self.assertEqual(named, {version.group(1)})

    def test_what_is_proved_is_short(self) -> None:
        """README says in eleven lines what is proved."""
        text = read("README.md").split("## What is proved\n\n")[1].split("\n\n")[0]
        self.assertLessEqual(len(text.split("\n")), 11)

    def test_sentences_are_short(self) -> None:
        """No sentence outside code and tables has more than forty words."""
        for name in written():
            for paragraph in paragraphs(read(name)):
                for sentence in sentences(paragraph):
                    if words(sentence) > MOST_WORDS:
                        with self.subTest(document=name, words=words(sentence)):
                            self.fail(sentence)

    def test_words_are_plain(self) -> None:
        """Words that only this project used do not come back."""
        for name in written():
            for paragraph in paragraphs(read(name)):
                for sentence in sentences(paragraph):
                    wrong = [word for word in NOT_PLAIN if word in sentence]
                    if re.search(r"\bbehind\b", sentence) and not IN_A_PICTURE.search(sentence):
                        wrong.append("behind")
                    with self.subTest(document=name, sentence=sentence):
                        self.assertEqual(wrong, [])

    def test_lines_are_short(self) -> None:
        """A line outside tables has at most 130 columns."""
        for name in written():
            for number, line in enumerate(read(name).split("\n"), start=1):
                if len(line) > MOST_COLUMNS and not line.startswith(("|", "!")):
                    with self.subTest(document=name, line=number):
                        self.fail(f"{len(line)} columns")

    def test_names_are_there(self) -> None:
        """What stands in backquotes and looks like a path, a command or a name of code is there."""
        for name in written():
            for quoted in QUOTED.findall(read(name)):
                with self.subTest(document=name, quoted=quoted):
                    self.assertFalse(name_is_wrong(quoted))
                    self.assertEqual([word for word in re.split(r"[\s,()]+", quoted) if path_is_wrong(word)], [])


if __name__ == "__main__":
    unittest.main()
