#!/usr/bin/env python3
"""Drives the page in headless Chromium, and compares what it shows and saves with what the native program prints and writes.

Usage: rows.py PROGRAM [NAME..]. PAGE names the page, if it isn't page/out/unixvol.html. NAME is the end of a `check_` function here; by default,
all run. It prints a line for each row that fails, and ends with 'N passed, N failed'. Without Chromium it says so, and nothing is run.
"""
import base64
import glob
import os
import re
import shutil
import subprocess
import sys
import tempfile
import time

sys.dont_write_bytecode = True
from browser import Browser, find_chromium

TOP = os.path.dirname(os.path.dirname(os.path.dirname(os.path.realpath(__file__))))
LESSONS = os.path.join(TOP, "samples/lessons")
LINUX_MADE = os.path.join(TOP, "samples/linux_made.v7")
count = {"passed": 0, "failed": 0}


def has(label, wanted, got):
    """The two are equal."""
    count["passed" if wanted == got else "failed"] += 1
    if wanted != got:
        print(f"failed: {label}\n    wanted {shown(wanted)}\n    came   {shown(got)}")


def shown(it):
    text = repr(it)
    return text if len(text) < 600 else f"{text[:600]} .. ({len(text)} characters)"


class Page(Browser):
    """The page, as a user sees it."""

    def __init__(self, path, **more):
        super().__init__(**more)
        self.path = os.path.realpath(path)
        self.go(f"file://{self.path}")
        self.wait("document.body.dataset.ready")

    def click(self, selector):
        self.js(f"const it = document.querySelector({selector!r}); if (!it) throw new Error('there is no ' + {selector!r}); it.click()")

    def text(self, selector):
        return self.js(f"return document.querySelector({selector!r})?.textContent ?? null")

    def texts(self, selector):
        return self.js(f"return [...document.querySelectorAll({selector!r})].map((it) => it.textContent)")

    def button(self, words):
        """Clicks the button with these words."""
        self.js(f"[...document.querySelectorAll('button')].find((it) => it.textContent === {words!r}).click()")

    def tab(self, name, seconds=60):
        self.click(f"#tab-{name}")
        self.shows(name, seconds)

    def rests(self, seconds=60):
        """Waits until the page has done all that it was asked."""
        self.wait("document.body.dataset.running === '0'", seconds)

    def shows(self, name, seconds=60):
        """Waits until a tab is shown whole."""
        self.wait(f"document.getElementById('panel').dataset.shown === {name!r} && document.body.dataset.running === '0'", seconds)

    def open(self, *paths, seconds=60):
        before = self.js("return document.querySelectorAll('#image option').length")
        self.choose_files("document.getElementById('open').click()", paths)
        self.wait(f"document.querySelectorAll('#image option').length === {before + len(paths)}", seconds)
        self.rests(seconds)

    def lesson(self, name):
        self.tab("lessons")
        self.click(f"[data-lesson='{name}']")
        self.shows("check")

    def paths(self):
        """The paths that the tree shows."""
        return self.js("return [...document.querySelectorAll('[role=treeitem]')].map((it) => it.dataset.path)")

    def select(self, path):
        self.click(f"[data-path='{path}'] > .line")
        self.wait(f"document.querySelector('[aria-selected=true]')?.dataset.path === {path!r}")
        self.shows("file")

    def says(self, words, seconds=60):
        """Waits until the status line has these words, and all is done."""
        self.wait(f"document.getElementById('said').textContent.includes({words!r})", seconds)
        self.rests(seconds)

    def answers(self, button="submit", **fields):
        """Fills in the dialog that is open, and ends it."""
        self.wait("document.querySelector('dialog[open]')")
        for name, value in fields.items():
            self.js(f"document.getElementById('ask-{name}').value = {value!r}")
        self.click("dialog [type=submit]" if button == "submit" else "dialog .row button[type=button]")

    def types(self, line, seconds=60):
        """Runs a line of the command line, and returns what it printed."""
        self.tab("shell")
        before = len(self.texts("#shell-log .entry"))
        self.js(f"document.getElementById('line').value = {line!r}; document.querySelector('#panel form').requestSubmit()")
        self.wait(f"document.querySelectorAll('#shell-log .entry').length === {before + 1}", seconds)
        self.shows("shell", seconds)
        return "".join(self.texts("#shell-log .entry:last-child pre"))

    def drops(self, path, name, data):
        """Drops a file on the line of a path in the tree."""
        self.js(f"""const data = new DataTransfer();
            data.items.add(new File([Uint8Array.from(atob('{base64.b64encode(data).decode()}'), (it) => it.charCodeAt(0))], {name!r}));
            document.querySelector('[data-path="{path}"] > .line').dispatchEvent(new DragEvent('drop', {{ bubbles: true, dataTransfer: data }}))""")

    def drops_folder(self, path, name, files):
        """Drops a folder with these files, by name, on the line of a path in the tree, or on the page. A script can't make a folder, so what a browser gives
        of one is stood in for."""
        self.js(f"""const file = ([name, bytes]) => ({{ name, isDirectory: false, file: (done) => done(new File([bytes], name, {{ lastModified: 3e11 }})) }});
            const kids = Object.entries({files!r}).map(file);
            const createReader = () => ({{ readEntries: (done) => done(kids.splice(0, 1)) }});
            const items = [{{ webkitGetAsEntry: () => ({{ name: {name!r}, isDirectory: true, createReader }}) }}];
            const event = new DragEvent('drop', {{ bubbles: true }});
            Object.defineProperty(event, 'dataTransfer', {{ value: {{ files: [], items }} }});
            (document.querySelector('[data-path="{path}"] > .line') ?? document.body).dispatchEvent(event)""")

    def image(self, name):
        """The bytes of the image that is open, as the page saves it."""
        self.click("#save")
        return self.download(name)


class Native:
    """The native program, in a folder of its own."""

    def __init__(self, program):
        self.program = os.path.realpath(program)
        self.room = tempfile.mkdtemp(prefix="page-rows-")

    def path(self, name):
        return os.path.join(self.room, name)

    def run(self, *words, stdin=b""):
        return subprocess.run([self.program, *map(str, words)], cwd=self.room, input=stdin, capture_output=True, check=False)

    def out(self, *words):
        return self.run(*words).stdout.decode()

    def bytes(self, name):
        with open(self.path(name), "rb") as file:
            return file.read()

    def write(self, name, data):
        with open(self.path(name), "wb") as file:
            file.write(data)
        return self.path(name)


def check_open(page, native):
    """Opening, and the tree."""
    page.open(LINUX_MADE)
    has("the state of a sound image", "240 blocks, 198 free; ✓ sound", page.text("#state"))
    has("the paths in the tree", sorted(["/", *native.out("find", 7, LINUX_MADE).splitlines()]), sorted(page.paths()))
    line = page.js("return [...document.querySelector('[data-path=\"/etc/passwd\"] > .line').children].map((it) => it.textContent)")
    has("a line of the tree", [" passwd", "-rw-------", "0 0", "47", "2026-11-23 20:52:57"], line)
    page.select("/etc/passwd")
    has("a file as text", native.out("cat", 7, LINUX_MADE, "/etc/passwd"), page.text("#bytes-of-file"))
    for form, words in ("octal", ["od"]), ("hexadecimal", ["od", "-A", "d", "-t", "x1z"]):
        page.click(f"[name=form][value={form}]")
        wanted = subprocess.run(words, input=native.run("cat", 7, LINUX_MADE, "/etc/passwd").stdout, capture_output=True, check=True).stdout.decode()
        has(f"a file in {form}", wanted, page.text("#bytes-of-file"))
    page.click("#download")
    has("a file that is saved", native.run("cat", 7, LINUX_MADE, "/etc/passwd").stdout, page.download("passwd"))
    page.click("#export-tar")
    has("a tree that is saved", native.run("export", 7, LINUX_MADE).stdout, page.download("linux_made.v7.tar"))


# Clicks the middle of the square of `block`.
CLICK_SQUARE = """
    document.getElementById('block-use').replaceChildren();
    const map = document.querySelector('.map');
    const box = map.getBoundingClientRect();
    const columns = map.viewBox.baseVal.width / 12;
    const side = box.width / columns;
    const [x, y] = [block % columns, Math.floor(block / columns)].map((it) => (it + 0.5) * side);
    map.dispatchEvent(new MouseEvent('click', { clientX: box.left + x, clientY: box.top + y }));
"""


def check_views(page, native):
    """The map, an i-node, a block, the free list, find and the manifest."""
    page.open(LINUX_MADE)
    page.select("/etc/passwd")
    page.tab("map")
    letters = page.js("""const squares = [];
        const columns = document.querySelector('.map').viewBox.baseVal.width / 12;
        for (const it of document.querySelectorAll('.map path[class^=u-]'))
            for (const [, x, y] of it.getAttribute('d').matchAll(/M([0-9]+) ([0-9]+)/g)) squares[y / 12 * columns + x / 12] = it.getAttribute('class').slice(2);
        return squares.join('')""")
    has("the squares of the map", "".join(row[8:] for row in native.out("map", 7, LINUX_MADE).split("\n\n")[1].split("\n")), letters)
    for block in 0, 1, 2, 32, 239:
        page.js(f"const block = {block}; {CLICK_SQUARE}")
        page.wait("document.querySelector('#block-use pre')")
        has(f"the use of block {block}", native.out("block", 7, LINUX_MADE, block).strip(), page.text("#block-use pre"))
    page.tab("inode")
    has("the mode of an i-node", "0100600: file, -rw-------", page.text("#panel td"))
    page.tab("volume")
    free = page.texts(".free")
    numbers = [int(it) for line in free for it in re.findall(r"\d+", line.split(": ")[1])]
    wanted = [int(it) for line in native.out("free", 7, LINUX_MADE).splitlines() if line.startswith("free[") for it in line.split()[1:]]
    has("the free list", wanted, numbers)
    page.tab("find")
    page.js("document.getElementById('pattern').value = 'f1*'; document.querySelector('#panel form').requestSubmit()")
    page.wait("document.querySelector('#found li')")
    has("what find finds", native.out("find", 7, LINUX_MADE, "--name", "f1*").splitlines(), page.texts("#found li"))
    page.click("#sums")
    page.wait("document.querySelector('#panel pre')")
    has("the manifest", native.out("sums", 7, LINUX_MADE), page.text("#panel pre"))


def check_lessons(page, _):
    """What Check shows of each lesson is what its text has."""
    for path in sorted(glob.glob(f"{LESSONS}/*.v[67]")):
        name = os.path.basename(path)
        with open(f"{path}.txt", encoding="utf-8") as text:
            wanted = [it for it in text.read().split("unixvol check ")[1].splitlines()[1:] if re.match(r"\d+ [^:]*: ", it)][:12]
        page.lesson(name)
        rows = page.js("return [...document.querySelectorAll('#rules tbody tr')].map((it) => [...it.cells].map((one) => one.textContent))")
        shown_rows = [f"{rule} {requires}: {re.sub(r' [(](holds|broken|not checked)[)]$', '', said)[2:]}" for rule, requires, said in rows]
        has(f"the check of {name}", wanted, shown_rows)
        broken = [it for it in wanted if not it.endswith((": holds", ": not asked"))]
        said = broken[0].split(" ", 1)[1] if broken else "✓ sound"
        has(f"{name}: what is broken is said at the top", True, said in page.text("#state"))


def check_ten_steps(page, _):
    """Each command of docs/LESSON.md prints in the page what the lesson has."""
    page.tab("lessons")
    steps = page.js("return document.querySelectorAll('.step .run').length")
    for k in range(steps):
        page.js(f"document.querySelectorAll('.step .run')[{k}].click()")
        page.rests()
    with open(os.path.join(TOP, "docs/LESSON.md"), encoding="utf-8") as lesson:
        has("the commands of the ten steps", len(re.findall(r"^    \$ ", lesson.read(), re.M)), len(page.texts(".came .good")) + len(page.texts(".came .bad")))
    has("the commands that print something else", [], page.texts(".came .bad"))


def check_changes(page, native):
    """Changes by the command line are those of the native program, byte for byte; undoing them; and changes by the buttons."""
    shutil.copy(LINUX_MADE, native.path("work.v7"))
    page.open(native.path("work.v7"))
    letter = native.write("letter", b"Dear Ken,\n" * 300)
    lines = [
        "mkdir 7 work.v7 /new 1000", "ln 7 work.v7 /etc/motd /new/motd 1001", "chmod 7 work.v7 /new 0700 1002", "rm -r 7 work.v7 /usr/games 1003",
        "mv 7 work.v7 /etc/passwd /new/p 1004",
    ]
    for k, line in enumerate(lines):
        shutil.copy(native.path("work.v7"), native.path(f"before.{k}"))
        has(f"the page's {line}", native.out(*line.split()), page.types(line))
    changed = native.bytes("work.v7")
    shutil.copy(native.path("work.v7"), native.path(f"before.{len(lines)}"))
    has("the image after five changes", changed, page.image("work.v7"))
    page.tab("changes")
    has("the changes that are listed", [f"unixvol {it}" for it in lines], page.texts("#changes code"))
    check_steps(page, native, len(lines))
    for _ in lines:
        page.click("#undo")
        page.shows("changes")
    with open(LINUX_MADE, "rb") as first:
        has("the image with all undone", first.read(), page.image("work.v7"))
    for _ in lines:
        page.click("#redo")
        page.shows("changes")
    has("the image with all made again", changed, page.image("work.v7"))
    check_buttons(page, native, letter)


def check_steps(page, native, count):
    """What each change did, field by field: the last by its button, then back to the first, step by step."""
    page.click("#changes tr:last-child [aria-label^=fields]")
    page.rests()
    for k in reversed(range(count)):
        has(f"what change {k + 1} did", native.out("diff", 7, f"before.{k}", f"before.{k + 1}", "--fields"), page.text("#fields pre"))
        page.click("[aria-label='the one before']")
        page.rests()


def check_buttons(page, native, letter):
    page.tab("file")
    page.select("/new")
    page.click("#mkdir")
    page.answers(name="sub")
    page.says("sub was made")
    page.select("/new/sub")
    page.choose_files("document.getElementById('put').click()", [letter])
    page.says("letter is in the volume")
    page.wait("document.querySelector('[aria-selected=true]')?.dataset.path === '/new/sub/letter'")
    page.shows("file")
    has("a file that was put in", "Dear Ken,\n" * 300, page.text("#bytes-of-file"))
    page.click("#chmod")
    page.answers(perm="0600")
    page.says("permissions 0600")
    page.click("#mv")
    page.answers(to="/new/sub/dear")
    page.says("is now /new/sub/dear")
    page.select("/new/sub")
    page.click("#mknod")
    page.answers(name="tty", major="3", minor="5", perm="0622")
    page.says("tty was made")
    has("a special file in the tree", "3, 5", page.text("[data-path='/new/sub/tty'] .size"))
    native.write("buttons.v7", page.image("work.v7"))
    has("the special file, as the native program lists it", "crw--w--w- 1 0 0 3, 5", " ".join(native.out("ls", "-l", 7, "buttons.v7", "/new/sub/tty").split()[1:7]))
    has("the volume is sound", 0, native.run("check", 7, "buttons.v7").returncode)
    has("the file, as the native program reads it", "Dear Ken,\n" * 300, native.out("get", 7, "buttons.v7", "/new/sub/dear"))
    has("its permissions", "-rw-------", native.out("ls", "-l", 7, "buttons.v7", "/new/sub/dear").split()[1])
    page.select("/new/sub")
    others = [native.write(name, name.encode()) for name in ("one", "two", "three")]
    page.choose_files("document.getElementById('put').click()", others)
    page.says("3 files put into /new/sub")
    native.write("buttons.v7", page.image("work.v7"))
    names = [os.path.basename(it) for it in native.out("find", 7, "buttons.v7", "/new/sub").split()]
    has("three files that were put in", ["dear", "one", "three", "tty", "two"], names)
    page.select("/new/sub")
    page.choose_files("document.getElementById('put').click()", [native.write(name, b"") for name in ("holiday photo 1", "holiday photo 2")])
    page.says("holiday photo 1 has a name above 14 bytes: nothing was put into /new/sub")
    native.write("buttons.v7", page.image("work.v7"))
    has("files whose names would be cut", names, [os.path.basename(it) for it in native.out("find", 7, "buttons.v7", "/new/sub").split()])
    page.select("/new/sub")
    page.click("#rm")
    page.answers()
    page.says("/new/sub was removed")
    native.write("buttons.v7", page.image("work.v7"))
    has("a tree that was removed", ["/new/motd", "/new/p"], native.out("find", 7, "buttons.v7", "/new").splitlines())


def check_scripts(page, native):
    """Two scripts of calls, that the command line writes and plays, and their receipts."""
    shutil.copy(f"{LESSONS}/sound.v7", native.path("played.v7"))
    page.open(native.path("played.v7"))
    scripts = {"first": "1000 0 0 mkdir /a 755\n1001 0 0 create /a/b 644\n", "second": "1002 0 0 stat /etc/motd\n1003 0 0 unlink /none\n"}
    for name, text in scripts.items():
        native.write(name, text.encode())
        page.types(f"printf '{text}' > {name}".replace("\n", "\\n"))
    wanted = native.out("play", "--journal", 7, "played.v7", "first", "second")
    has("the receipts", sorted(wanted.splitlines()), sorted(page.types("play --journal 7 played.v7 first second").splitlines()))
    has("the image after two scripts", native.bytes("played.v7"), page.image("played.v7"))
    has("a line that can't be read", "this line cannot be read: a quote or a name is missing\n", page.types("ls 7 'played.v7"))
    has("a pipe", native.out("ls", 7, "played.v7").splitlines()[-1] + "\n", page.types("ls 7 played.v7 | tail -n 1"))


def check_play(page, native):
    """Two scripts in the tab for them: what each line came to, and what each call of the journal changed."""
    page.lesson("sound.v7")
    shutil.copy(f"{LESSONS}/sound.v7", native.path("scripts.v7"))
    scripts = [
        "1000 0 0 mkdir /a 755\n1001 0 0 create /a/b 644\n1002 0 0 write /a/b 0 616263\n1003 0 0 unlink /none\n",
        "1000 0 0 chmod /welcome 600\n1001 0 0 stat /etc/motd\n1002 0 0 rmdir /etc",
    ]
    page.tab("play")
    for k, text in enumerate(scripts, 1):
        native.write(f"script{k}", text.rstrip("\n").encode() + b"\n")
        page.js(f"const it = document.getElementById('script-{k}'); it.value = {text!r}; it.dispatchEvent(new Event('input'))")
    page.click("#play")
    page.rests()
    page.shows("play")
    wanted = native.out("play", "--journal", 7, "scripts.v7", "script1", "script2").splitlines()
    rows = page.js("return [...document.querySelectorAll('#results tbody tr')].map((it) => [...it.cells].map((one) => one.textContent))")
    # The calls of two scripts may be made in another order, so a new i-node may have another number.
    has("the results of two scripts", [it for it in wanted if "." in it.split()[0]], [f"{line} {came.removeprefix('✗ ')}" for line, _, came in rows])
    has("the calls beside them", [it for text in scripts for it in text.splitlines()], [call for _, call, _ in rows])
    calls = page.text("#journal").splitlines()
    has("the journal", sorted(it for it in wanted if re.match(r"\d+ \d+ \d+ ", it)), sorted(calls))
    page.click("#step")
    page.wait("document.querySelector('#fields pre')")
    for k, call in enumerate(calls):
        shutil.copy(f"{LESSONS}/sound.v7", native.path("older.v7"))
        shutil.copy(f"{LESSONS}/sound.v7", native.path("newer.v7"))
        for name, count in ("older.v7", k), ("newer.v7", k + 1):
            native.write("calls", "".join(f"{it}\n" for it in calls[:count]).encode())
            native.run("play", 7, name, "calls")
        has(f"call {k + 1}", call, page.text("#call"))
        has(f"what call {k + 1} changed", native.out("diff", 7, "older.v7", "newer.v7", "--fields"), page.text("#fields pre"))
        page.click("[aria-label='the next one']")
        page.rests()


def check_packed(page, _):
    """The page is what pack.py makes of these files, byte for byte."""
    module = os.path.join(os.path.dirname(page.path), "unixvol.wasm")
    if not os.path.exists(module):
        return
    again = os.path.join(page.room, "again.html")
    subprocess.run([sys.executable, os.path.join(TOP, "page/pack.py"), module, again], check=True)
    with open(page.path, "rb") as one, open(again, "rb") as other:
        has("the page, packed again", True, one.read() == other.read())


def check_new(page, native):
    """A new volume by a disk's name, an archive that goes in, and the drop of a file on the tree."""
    page.click("#new")
    page.answers(name="new.img", edition="6", disk="rk05")
    page.says("new.img was made")
    has("a new volume", "4,872 blocks", page.text("#state").split(",  ")[0].split(", ")[0])
    archive = native.write("tree.tar", native.run("export", 7, LINUX_MADE, "/etc").stdout)
    page.choose_files("document.getElementById('import-tar').click()", [archive])
    page.says("The files of tree.tar are in /")
    native.write("new.img", page.image("new.img"))
    has("what was imported", "/empty\n/motd\n/passwd\n", native.out("find", 6, "new.img"))
    page.drops("/", "drop", b"dropped\n")
    page.says("drop is in the volume")
    native.write("new.img", page.image("new.img"))
    has("a file that was dropped", "dropped\n", native.out("get", 6, "new.img", "/drop"))
    page.drops_folder("/", "src", {"b.c": "int x;\n", "a.c": "a\n"})
    page.says("The files of src are in /")
    native.write("new.img", page.image("new.img"))
    has("a folder that was dropped", "/src/a.c\n/src/b.c\n", native.out("find", 6, "new.img", "/src"))
    has("a file in it", "int x;\n", native.out("get", 6, "new.img", "/src/b.c"))
    page.drops_folder("/", "src", {"c.c": "c\n", "a.c": "other\n"})
    page.rests()
    has("a folder with a file that is there", True, "Exists" in page.text("#said"))
    page.drops_folder("no path", "src", {})
    page.says("A folder is no image")
    names = re.findall(r"\S+$", subprocess.run(["tar", "-tf", archive], capture_output=True, check=True, text=True).stdout, re.M)
    page.drops("/", "again.tar", native.bytes("tree.tar"))
    page.answers()
    page.rests()
    has("an archive that was dropped on what it has", True, "Exists" in page.text("#said"))
    page.types("mkdir 6 new.img /sub")
    page.drops("/sub", "again.tar", native.bytes("tree.tar"))
    page.answers()
    page.says("The files of again.tar are in /sub")
    native.write("new.img", page.image("new.img"))
    has("an archive that was dropped", sorted(f"/sub/{it}" for it in names), sorted(native.out("find", 6, "new.img", "/sub").splitlines()))


def check_bytes(page, _):
    """A byte that is changed breaks a rule at once, and undoing mends it."""
    page.lesson("sound.v7")
    page.tab("bytes")
    page.js("const it = document.getElementById('number'); it.value = 2; it.dispatchEvent(new Event('change'))")
    page.wait("document.querySelector('.hex th')?.textContent === '1024' && document.getElementById('panel').dataset.shown === 'bytes'")
    page.click(f"[data-at='{1410 - 1024}']")
    has("what a byte is", "Byte 1410 is 02, octal 002: i-node 7: links, byte 0 of 2", page.text("#byte-is"))
    page.js("document.getElementById('new-byte').value = '01'; document.querySelector('#byte form').requestSubmit()")
    page.wait("document.querySelector('#broke .bad')")
    broken = "✗ Rule 12 breaks: each link count is the number of entries: a wrong link count: i-node 7, entries 2, links 1"
    has("the rule that it breaks", broken, page.text("#broke .bad"))
    with open(f"{LESSONS}/rule_12.v7", "rb") as wanted:
        has("the image with this byte", wanted.read(), page.image(page.js("return document.getElementById('image').value")))
    page.click("#undo-last")
    page.wait("document.getElementById('state').textContent.includes('✓ sound')")


def check_damaged(page, native):
    """What can be read of a damaged image is shown, and nothing is put into it."""
    page.lesson("rule_12.v7")
    has("the tree of a damaged image", ["/", "/etc", "/etc/motd", "/usr", "/usr/letter", "/welcome"], page.paths())
    page.select("/welcome")
    has("a file of a damaged image", "hello, disk\n", page.text("#bytes-of-file"))
    has("what changes it is off", [True] * 3, page.js("return ['put-files', 'import-tar', 'rm'].map((it) => document.getElementById(it).disabled)"))
    page.lesson("rule_01.v7")
    has("the tree of a cut image", ["/"], page.paths())
    for button, options in ("whole", ["--cut"]), ("damaged", ["--cut", "--damaged"]):
        wanted = native.run("--explain", "export", *options, 7, f"{LESSONS}/rule_01.v7")
        page.click(f"#{button}")
        name = page.js("return document.getElementById('image').value")
        has(f"a cut image exported: {button}", wanted.stdout, page.download(f"{name}.tar"))
        page.rests()
        has(f"what is said of it: {button}", wanted.stderr.decode(), page.text("#lost"))
    page.lesson("rule_08.v7")
    page.click("#salvage")
    page.answers()
    page.wait("document.getElementById('state').textContent.includes('✓ sound')")
    has("a free list that is repaired", True, "✓ sound" in page.text("#state"))


def check_rescue(page, native):
    """The files of an image of which a map says what could be read."""
    sound = f"{LESSONS}/sound.v7"
    chart = native.write("rescue.map", b"# Mapfile\n0 + 1\n0 0x1400 +\n0x1400 0x200 -\n0x1600 0x10000 +\n")
    page.open(sound)
    page.tab("check")
    page.choose_files("document.getElementById('map-file').click()", [chart])
    page.wait("document.getElementById('whole')")
    for button, options in ("whole", []), ("damaged", ["--damaged"]):
        wanted = native.run("--explain", "export", "--bad", chart, *options, 7, sound)
        page.click(f"#{button}")
        name = page.js("return document.getElementById('image').value")
        has(f"exported by a map: {button}", wanted.stdout, page.download(f"{name}.tar"))
        page.rests()
        has(f"what is said of what the map calls unread: {button}", wanted.stderr.decode(), page.text("#lost"))


def check_repair(page, native):
    """A damaged volume: what a repair changes, and the copy that it makes."""
    page.lesson("rule_09.v7")
    page.click("#repairs")
    page.rests()
    wanted = native.run("--explain", "repair", "-n", 7, f"{LESSONS}/rule_09.v7")
    has("what a repair changes", wanted.stdout.decode().strip(), page.text("#panel [aria-live] pre").strip())
    page.click("#repair")
    page.answers(name="repaired.img")
    page.says("repaired.img was made")
    has("the verdict of a repaired copy", True, "✓ sound" in page.text("#state"))
    native.run("repair", 7, f"{LESSONS}/rule_09.v7", "repaired.img")
    has("a repaired copy", native.bytes("repaired.img"), page.image("repaired.img"))


def packed(native):
    """A pack with a volume at block 102, as a file."""
    with open(LINUX_MADE, "rb") as volume:
        return native.write("pack.img", b"\0" * 51200 + b"boot" * 128 + b"\0" * 512 + volume.read() + b"\1" * 5120)


def check_several(page, native):
    """Images of several kinds, and the table of all."""
    page.open(f"{LESSONS}/sound.v6", f"{LESSONS}/rule_09.v7", packed(native))
    page.shows("images")
    rows = page.js("return [...document.querySelectorAll('#images tbody tr')].map((it) => [...it.cells].slice(0, 5).map((one) => one.textContent))")[-3:]
    has("a sound image in the table", ["6", "sound", "24", "7"], rows[0][1:])
    has("a broken one", ["7", "breaks rule 9: each entry has a name of its own and an i-node: a free i-node: directory 2, slot 5", "16", "7"], rows[1][1:])
    has("a pack", native.out("identify", "pack.img").split("\n")[0].split(": ", 1)[1], rows[2][2].split(";")[0])
    page.click("#csv")
    lines = page.download("images.csv").decode().split("\r\n")
    has("the table's head", "Image,Edition,State,Blocks,Free,Bytes", lines[0])
    has("a line of the table", "6,sound,24,7,12288", lines[-4].split(",", 1)[1])
    before = page.texts("#images tbody .link")
    page.click(f"[aria-label='close {before[0]}']")
    page.rests()
    has("the images after one is closed", before[1:], page.texts("#images tbody .link"))


def check_pack(page, native):
    """A volume within a pack, which is changed and downloaded with it."""
    page.open(packed(native))
    name = page.js("return document.getElementById('image').value")
    page.tab("images")
    offered = "Open the volume of edition 7 at block 102"
    opens = f"const row = [...document.querySelectorAll('#images tr')].find((it) => it.textContent.startsWith({name!r})); " \
            f"[...row.querySelectorAll('button')].find((it) => it.textContent === {offered!r}).click()"
    page.js(opens)
    page.wait("document.getElementById('state').textContent.startsWith('240 blocks')")
    has("the volume within a pack", True, "✓ sound" in page.text("#state"))
    page.types(f"mkdir 7 {name}.102 /new 1000")
    native.out("mkdir", "7", "pack.img", "/new", "1000", "--at", "102")
    page.tab("images")
    page.button(f"Download {name} with it")
    has("the pack with its volume changed", native.bytes("pack.img"), page.download(name))
    # The pack's own bytes there are another change, which isn't lost without being asked for.
    page.types(f"rm -r 7 {name} /usr 1001 --at 102")
    page.tab("images")
    page.button(f"Download {name} with it")
    page.answers(button="cancel")
    page.says("Nothing was saved")
    page.button(f"Download {name} with it")
    page.answers()
    has("the pack, as the volume has it", native.bytes("pack.img"), page.download(name))
    page.tab("images")
    page.js(opens)
    page.rests()
    has("the volume of a pack that was changed", [], [it for it in page.paths() if it.startswith("/usr")])


def check_keys(page, _):
    """The tree, the tabs and the map by keys."""
    page.lesson("sound.v7")
    page.js("document.querySelector('[role=treeitem][tabindex=\"0\"]').focus()")
    here = "return document.activeElement.dataset.path ?? document.activeElement.id"
    went = []
    for key in "ArrowDown", "ArrowLeft", "ArrowDown", "ArrowUp", "ArrowRight", "ArrowRight", "End", "Home", "w":
        page.press(key, text=key if len(key) == 1 else None)
        went.append(page.js(here))
    has("keys in the tree", ["/etc", "/etc", "/usr", "/etc", "/etc", "/etc/motd", "/welcome", "/", "/welcome"], went)
    page.press("Enter", text="\r")
    page.shows("file")
    has("Enter shows the file", "/welcome", page.text("#panel h2"))
    page.js("document.getElementById('tab-file').focus()")
    page.press("ArrowRight")
    page.shows("map")
    has("keys in the tabs", "tab-map", page.js(here))
    page.js("document.querySelector('.map').focus()")
    page.press("Home")
    page.press("ArrowRight")
    has("keys in the map", "block 1: super-block", page.text("#block-said"))
    page.press("Enter", text="\r")
    page.wait("document.querySelector('#block-use pre')")
    has("Enter shows the use", "block 1: super-block", page.text("#block-use pre"))
    nameless = """return [...document.querySelectorAll('button, input, select, [role=tab], [role=treeitem]')]
        .filter((it) => !(it.ariaLabel || it.textContent.trim() || it.labels?.length)).map((it) => it.outerHTML)"""
    for tab in page.js("return [...document.querySelectorAll('[role=tab]')].map((it) => it.id.slice(4))"):
        page.tab(tab)
        has(f"{tab}: what has no name for a screen reader", [], page.js(nameless))


def check_narrow(page, _):
    """On a narrow screen and on a wide one each tab is shown, and is no wider than the screen."""
    page.lesson("rule_12.v7")
    for size in (360, 740), (1600, 900):
        page.resize(*size)
        for tab in page.js("return [...document.querySelectorAll('[role=tab]')].map((it) => it.id.slice(4))"):
            page.tab(tab)
            has(f"the width of {tab}", True, page.js("return document.documentElement.scrollWidth <= innerWidth"))
            has(f"{tab} is seen", True, page.js("const it = document.querySelector('#panel h2').getBoundingClientRect(); "
                                                "return it.top >= 0 && it.bottom <= innerHeight"))
    page.resize(1280, 800)


def sparse(native, name, size):
    """A sound volume with a file /big of `size` bytes, all of them a hole."""
    native.run("mkfs", 7, name, 60, 2, 0, 0, 1000)
    native.write("nothing", b"")
    native.run("put", 7, name, "/big", "nothing", 1000)
    data = bytearray(native.bytes(name))
    inode = int(re.search(r"i-node (\d+)", native.out("inode", 7, name, "/big"))[1])
    at = 1024 + 64 * (inode - 1) + 8
    data[at:at + 4] = (size >> 16).to_bytes(2, "little") + (size & 0xFFFF).to_bytes(2, "little")
    return native.write(name, bytes(data))


def check_hostile(page, native):
    """An i-node that names one block two million times doesn't freeze the page."""
    native.run("mkfs", 7, "endless.img", 60, 2, 0, 0, 1000)
    native.write("nothing", b"x")
    native.run("put", 7, "endless.img", "/big", "nothing", 1000)
    data = bytearray(native.bytes("endless.img"))
    at = 1024 + 64 * (int(re.search(r"i-node (\d+)", native.out("inode", 7, "endless.img", "/big"))[1]) - 1)
    data[at + 8:at + 51] = (1082201088 >> 16).to_bytes(2, "little") + (1082201088 & 0xFFFF).to_bytes(2, "little") + bytes([0, 30, 0]) * 13
    data[512 * 30:512 * 31] = bytes([0, 0, 30, 0]) * 128
    page.open(native.write("endless.img", bytes(data)))
    page.select("/big")
    begun = time.time()
    for tab in "inode", "map", "bytes", "check":
        page.tab(tab)
    has("four tabs of an endless i-node are soon shown", True, time.time() - begun < 60)
    page.tab("inode")
    has("its mode", "0100644: file, -rw-r--r--", page.text("#panel td"))
    has("it is said that there is more", 1, len([it for it in page.texts("#panel p") if it.startswith("It names more than these")]))
    page.js("[...document.querySelectorAll('#panel button')].find((it) => it.textContent.startsWith('Show more')).click()")
    has("its blocks", 1000, page.js("return [...document.querySelectorAll('#panel table')].at(-1).tBodies[0].rows.length"))


def check_bounds(page, native):
    """A hostile archive is asked for first, a long command can be stopped, and the page goes on."""
    page.open(sparse(native, "hostile.img", 1000000000))
    has("a volume with a hole of 1 GB", True, "✓ sound" in page.text("#state"))
    page.click("#export-tar")
    page.answers(button="cancel")
    page.says("Nothing was saved")
    page.tab("find")
    page.click("#sums")
    page.wait("!document.getElementById('busy').hidden && document.getElementById('stop')")
    page.click("#stop")
    page.says("Stopped")
    page.wait("document.getElementById('busy').hidden")
    has("the image after a stop", native.bytes("hostile.img"), page.image("hostile.img"))
    has("a command after a stop", native.out("df", 7, "hostile.img"), page.types("df 7 hostile.img"))


def check_large(page, native):
    """100 MB: open, check, change, save."""
    native.run("mkfs", 7, "large.img", 204800, 2000, 0, 0, 1000)
    native.write("body", os.urandom(1 << 20) * 20)
    for k in range(3):
        native.run("put", 7, "large.img", f"/file{k}", "body", 1000)
    begun = time.time()
    page.open(native.path("large.img"))
    has("100 MB", "204,800 blocks", page.text("#state").split(", ")[0].replace(", ", ""))
    print(f"100 MB opened in {time.time() - begun:.1f} s")
    native.run("mkdir", 7, "large.img", "/d", 2000)
    page.types("mkdir 7 large.img /d 2000")
    has("100 MB, changed", True, native.bytes("large.img") == page.image("large.img"))


def check_quiet(page, _):
    """Nothing was requested, and nothing failed."""
    has("what the page requested", [], page.requests())
    has("faults of the page", [], page.faults())
    blocked = page.js("return await fetch('https://example.com/').then(() => 'sent', (it) => it.name)")
    has("a request of the page", "TypeError", blocked)


ROWS = [
    check_packed, check_open, check_views, check_lessons, check_ten_steps, check_changes, check_scripts, check_play, check_new, check_bytes, check_damaged,
    check_rescue, check_repair, check_several, check_pack, check_keys, check_narrow, check_hostile, check_bounds, check_large, check_quiet,
]


def main():
    program, *names = sys.argv[1:]
    path = os.environ.get("PAGE", os.path.join(TOP, "page/out/unixvol.html"))
    if not find_chromium():
        print("skipped: no Chromium is here (Debian's chromium): the page in a browser")
        return 0
    if not os.path.exists(path):
        sys.exit(f"{path} is not here; `make page` builds it")
    native = Native(program)
    page = Page(path)
    try:
        for row in ROWS:
            if not names or row.__name__.removeprefix("check_") in names:
                row(page, native)
    finally:
        page.close()
        shutil.rmtree(native.room, ignore_errors=True)
    print(f"{count['passed']} passed, {count['failed']} failed")
    return 1 if count["failed"] else 0


if __name__ == "__main__":
    sys.exit(main())
