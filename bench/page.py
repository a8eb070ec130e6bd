#!/usr/bin/env python3
"""Times the program for WebAssembly beside the native one, on volumes of 2.5, 100 and 500 MB that are half full: by Node's
command, whole processes, and in the page, in Chromium, by what its worker says of each command.

Usage: bench/page.py PROGRAM FOLDER, which tools/page.sh built. It prints for each job the least time of three, in
milliseconds, and the most memory, in MiB: of the process, or in the page of the browser's process for it, with the image.
"""
import os
import re
import shutil
import subprocess
import sys
import time

sys.dont_write_bytecode = True
TOP = os.path.dirname(os.path.dirname(os.path.realpath(__file__)))
sys.path.insert(0, os.path.join(TOP, "tests/page"))
from rows import Native, Page

TIMES = 3
SIZES = [("2.5 MB", 4872), ("100 MB", 195312), ("500 MB", 976562)]
JOBS = [["check"], ["find"], ["map", "--svg"], ["sums"], ["export"], ["mkdir"]]


def words(job, image, k):
    """The words of a command; `mkdir` makes a new directory each time."""
    return [*job, "7", image, *([f"/new{k}"] if job == ["mkdir"] else [])]


def measured(command, folder):
    """The milliseconds and the MiB of a command."""
    begun = time.perf_counter()
    with open(os.devnull, "wb") as nothing:
        process = subprocess.Popen(command, cwd=folder, stdout=nothing)
        _, status, used = os.wait4(process.pid, 0)
    process.returncode = os.waitstatus_to_exitcode(status)
    if process.returncode:
        sys.exit(f"{command}: status {process.returncode}")
    return 1000 * (time.perf_counter() - begun), used.ru_maxrss / 1024


def volume(native, name, blocks):
    """A volume with a hundred files in ten directories, half full."""
    native.run("mkfs", 7, name, blocks)
    size = 512 * blocks // 200
    files = [native.write(f"f{k}", os.urandom(size)) for k in range(10)]
    for k in range(10):
        native.run("mkdir", 7, name, f"/d{k}")
        native.run("put", 7, name, "-t", f"/d{k}", *map(os.path.basename, files))
    return native.path(name)


class Tab:
    """The page in a browser, with an image open."""

    def __init__(self, path, image):
        self.page = Page(path)
        begun = time.perf_counter()
        self.page.open(image, seconds=300)
        self.opened = 1000 * (time.perf_counter() - begun)
        self.worker = max(self.renderers(), key=self.peak)

    def renderers(self):
        """The processes of the browser that run pages."""
        group = os.getpgid(self.page.process.pid)
        found = []
        for it in filter(str.isdigit, os.listdir("/proc")):
            try:
                with open(f"/proc/{it}/cmdline", "rb") as file:
                    if os.getpgid(int(it)) == group and b"--type=renderer" in file.read():
                        found.append(it)
            except OSError:
                continue
        return found

    def peak(self, process):
        with open(f"/proc/{process}/status", encoding="ascii") as file:
            return int(re.search(r"VmHWM:\s+(\d+)", file.read())[1]) / 1024

    def measured(self, command):
        with open(f"/proc/{self.worker}/clear_refs", "w", encoding="ascii") as file:
            file.write("5")
        if command[0] == "export":
            self.page.click("#export-tar")
            self.page.download(f"{command[2]}.tar", 300)
            self.page.rests(300)
        else:
            self.page.types(" ".join(command) + ("" if command[0] == "mkdir" else " > output"), 300)
        self.page.tab("shell")
        line = [it for it in self.page.text("#log pre").splitlines() if it.startswith(f"$ unixvol {' '.join(command)}")][-1]
        return float(re.search(r"status 0, (\d+) ms", line)[1]), self.peak(self.worker)


def main():
    program, built = sys.argv[1:]
    native, node = Native(program), shutil.which("node")
    print(f"{'job':22}{'ms':>9}{'Node ms':>9}{'page ms':>9}{'MiB':>9}{'Node MiB':>9}{'page MiB':>9}")
    for label, blocks in SIZES:
        image = volume(native, "disk.img", blocks)
        tab = Tab(os.path.join(built, "unixvol.html"), image)
        print(f"{f'open, {label}':22}{'':18}{tab.opened:9.1f}{'':18}{tab.peak(tab.worker):9.1f}")
        for job in JOBS:
            took = []
            for k in range(TIMES):
                took += [[measured([native.program, *words(job, "disk.img", k)], native.room),
                          measured([node, os.path.abspath(os.path.join(built, "unixvol.mjs")), *words(job, "disk.img", TIMES + k)], native.room),
                          tab.measured(words(job, "disk.img", 2 * TIMES + k))]]
            times = [min(it[k][0] for it in took) for k in range(3)]
            peaks = [max(it[k][1] for it in took) for k in range(3)]
            name = f"{' '.join(job)}, {label}"
            print(f"{name:22}" + "".join(f"{it:9.1f}" for it in times + peaks), flush=True)
        tab.page.close()
    shutil.rmtree(native.room)


main()
