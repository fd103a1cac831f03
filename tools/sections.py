"""The numbered sections of docs/PROTOCOL.md."""

import os
import re

from places import ROOT

DOCS = os.path.join(ROOT, "docs")
PAGE = os.path.join(DOCS, "PROTOCOL.md")
HEADING = re.compile(r"^(##+) (\d+(?:\.\d+)*)\.? (.*)\n", re.M)


class Section:
    """A numbered section: its heading, and its text up to the next heading."""

    def __init__(self, found, text):
        self.level, self.number, self.heading = len(found[1]) - 1, found[2], found[3]
        self.title = self.heading.replace(" [ours]", "")
        self.line, self.text = found[0], text

    @property
    def anchor(self):
        return "#" + anchor_of(self.line)


def anchor_of(line):
    """What a page's readers make of the line of a heading, to link to it."""
    return re.sub(r"[^\w\- ]", "", line.lstrip("#").strip().lower()).replace(" ", "-")


def sections(page):
    """What is before the first section, and the sections."""
    found = list(HEADING.finditer(page))
    ends = [it.start() for it in found[1:]] + [len(page)]
    return page[: found[0].start()], [Section(it, page[it.end() : end]) for it, end in zip(found, ends)]
