"""The links of pages for a browser."""
import html.parser
import os
import re


def is_elsewhere(target):
    return re.match(r"[a-z][a-z+.-]*:", target) is not None


class Links(html.parser.HTMLParser):
    """The names of a page's parts, and what its links and pictures lead to."""

    def __init__(self, text):
        super().__init__()
        self.parts, self.targets = set(), []
        self.feed(text)

    def handle_starttag(self, tag, attrs):
        for name, value in attrs:
            if name == "id" or tag == "a" and name == "name":
                self.parts.add(value)
            elif name in ("href", "src") and value and not is_elsewhere(value):
                self.targets.append(value)


def dead(top):
    """A line for each link of the pages below a folder that leads to nothing in it."""
    pages = {}
    for folder, _, files in os.walk(top):
        for file in files:
            if file.endswith(".html"):
                path = os.path.relpath(f"{folder}/{file}", top)
                with open(f"{folder}/{file}", encoding="utf-8") as text:
                    pages[path] = Links(text.read())
    for page in sorted(pages):
        for target in pages[page].targets:
            path, _, part = target.partition("#")
            at = os.path.normpath(os.path.join(os.path.dirname(page), path)) if path else page
            is_there = os.path.isfile(f"{top}/{at}") and not at.startswith("../")
            if not is_there or part and at in pages and part not in pages[at].parts:
                yield f"{page}: leads nowhere: {target}"
