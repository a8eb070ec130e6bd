#!/usr/bin/env python3
"""Packs the page into one file that works from a disk, with no server and no network: its scripts, the module, the lessons.

Usage: pack.py MODULE.wasm OUT.html
The same files give the same bytes. Its content policy allows these scripts and this style by their checksums, a worker that is made
from the page itself, and nothing else: the page can request nothing.
"""
import base64
import glob
import gzip
import hashlib
import json
import os
import re
import sys

PAGE = os.path.dirname(os.path.realpath(__file__))
TOP = os.path.dirname(PAGE)
IMPORT = re.compile(r"^import \{([^}]*)\} from '\./(\w+)\.mjs';\n", re.M)
EXPORT = re.compile(r"^export ((?:async )?(?:function|class|const|let)\*? ([\w$]+))", re.M)


def read(name):
    with open(os.path.join(PAGE, name), encoding="utf-8") as file:
        return file.read()


def base64_of(data):
    return base64.b64encode(data).decode()


def module_order(name, done, above=()):
    """Puts into `done` the modules that `name` imports, each after those that it imports itself, and then `name`."""
    if name in above:
        raise SystemExit(f"pack.py: {' imports '.join([*above, name])}")
    if name in done:
        return
    for _, other in IMPORT.findall(read(f"{name}.mjs")):
        module_order(other, done, (*above, name))
    done.append(name)


def scoped(name):
    """A module as a function of its own, so that names of two modules are apart."""
    source = read(f"{name}.mjs")
    if re.search(r"^(export (default|\{|\*)|import (?!\{))", source, re.M):
        raise SystemExit(f"pack.py: {name}.mjs imports or exports in another form than this script knows")
    exports = [it for _, it in EXPORT.findall(source)]
    source = IMPORT.sub(lambda it: f"const {{{it[1].replace(' as ', ': ')}}} = modules.{it[2]};\n", source)
    source = EXPORT.sub(r"\1", source)
    return f"modules.{name} = (() => {{\n{source}return {{ {', '.join(exports)} }};\n}})();\n"


def bundle(name):
    """A module with all that it imports, as one script."""
    order = []
    module_order(name, order)
    script = "'use strict';\nconst modules = {};\n" + "".join(scoped(it) for it in order)
    if re.search(r"</script|<!--", script, re.I):
        raise SystemExit(f"pack.py: {name}.mjs has what would end its script in a page")
    return script


def lessons():
    """The text of the lesson, and for each image of the lessons its bytes and its text."""
    images = {}
    for path in sorted(glob.glob(os.path.join(TOP, "samples/lessons/*.v[67]"))):
        with open(path, "rb") as image, open(f"{path}.txt", encoding="utf-8") as text:
            images[os.path.basename(path)] = [base64_of(image.read()), text.read()]
    with open(os.path.join(TOP, "docs/LESSON.md"), encoding="utf-8") as lesson:
        packed = json.dumps({"lesson": lesson.read(), "images": images}, ensure_ascii=False)
    return packed.replace("<", "\\u003c")


def allowed(text):
    """What a content policy calls a script or style with this text."""
    return f"'sha256-{base64_of(hashlib.sha256(text.encode()).digest())}'"


def replaced(page, old, new):
    if page.count(old) != 1:
        raise SystemExit(f"pack.py: index.html has not one `{old}`")
    return page.replace(old, new)


def pack(module):
    style, script = read("page.css"), bundle("main")
    policy = "; ".join([
        "default-src 'none'", f"script-src {allowed(script)} 'wasm-unsafe-eval'", "worker-src blob:", f"style-src {allowed(style)}", "img-src data:",
        "form-action 'none'", "base-uri 'none'",
    ])
    parts = [
        f'<script type="text/plain" id="module">{base64_of(gzip.compress(module, 9, mtime=0))}</script>',
        f'<script type="text/plain" id="worker">{bundle("worker")}</script>',
        f'<script type="application/json" id="lessons">{lessons()}</script>',
        f'<script type="module">{script}</script>',
    ]
    page = read("index.html")
    page = replaced(page, '<meta charset="utf-8">\n', f'<meta charset="utf-8">\n<meta http-equiv="Content-Security-Policy" content="{policy}">\n')
    page = replaced(page, '<link rel="stylesheet" href="page.css">', f"<style>{style}</style>")
    return replaced(page, '<script type="module" src="main.mjs"></script>', "\n".join(parts))


def main():
    if len(sys.argv) != 3:
        raise SystemExit(__doc__)
    with open(sys.argv[1], "rb") as module:
        page = pack(module.read())
    with open(sys.argv[2], "w", encoding="utf-8", newline="\n") as file:
        file.write(page)


main()
