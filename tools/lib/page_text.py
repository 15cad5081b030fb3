"""The text of pages of one file: a template with styles, scripts and data put in its places."""
from __future__ import annotations

import json
import os
import re
from typing import Iterable

FOLDER = os.path.join(os.path.dirname(os.path.realpath(__file__)), "page")
# what is no text of a page, nor of an attribute in it
ESCAPES = str.maketrans({"&": "&amp;", "<": "&lt;", ">": "&gt;", '"': "&quot;", "'": "&#x27;"})


def parts(names: Iterable[str]) -> str:
    """The text of files of the folder `page`, one after another."""
    texts = []
    for name in names:
        with open(os.path.join(FOLDER, name), encoding="utf-8") as file:
            texts.append(file.read())
    return "\n".join(texts)


def escaped(text: str) -> str:
    """Text as it may stand in a page; bytes of a file's name that are no text show as such."""
    return text.encode("utf-8", "surrogateescape").decode("utf-8", "replace").translate(ESCAPES)


def json_text(data: object) -> str:
    """JSON that may stand in a script element: no text in it can end the element."""
    return json.dumps(data, separators=(",", ":")).replace("<", "\\u003c")


def fill(template: str, styles: Iterable[str], scripts: Iterable[str], places: dict[str, str]) -> str:
    """A page by its template, with each {{name}} replaced, once: what is put in is not looked at again."""
    whole = {**places, "styles": parts(styles), "scripts": parts(scripts)}
    text = parts(["head.html", template, "tail.html"])
    return re.sub(r"\{\{(\w+)\}\}", lambda match: whole[match.group(1)], text)
