#!/usr/bin/env python3
"""Makes plain text of each link in the documents below a folder that leads to no file there: an archive hasn't all that the repository has.
Usage: plain_links.py FOLDER"""

import pathlib
import re
import sys

LINK = re.compile(r"\[([^][]*)\]\(([^)#\s]+)(?:#[^)\s]*)?\)")


def plain(document):
    """Returns a document's text without the links that lead nowhere."""

    def kept(link):
        text, path = link.groups()
        return link.group() if ":" in path or (document.parent / path).exists() else text

    return LINK.sub(kept, document.read_text())


for document in pathlib.Path(sys.argv[1]).rglob("*.md"):
    document.write_text(plain(document))
