"""speed.py: prints the milliseconds of some work on a volume of 200 MB, one line for each job."""

import time

import unixvol

FILES = [f"f{n}" for n in range(5000)]


def row(job, work):
    """Prints how long a job took, and returns its result."""
    begin = time.perf_counter()
    made = work()
    print(f"{job:40} {(time.perf_counter() - begin) * 1000:9.1f}")
    return made


def make_files(volume):
    for name in FILES:
        (volume / name).create()


def stat_files(volume):
    for name in 2 * FILES:
        (volume / name).stat()


made = row("mkfs of 204,800,000 bytes", lambda: unixvol.mkfs(7, 400_000, 2_000, now=1))
image = row("image copied out", lambda: bytes(made))
made.close()
row("judge", lambda: unixvol.judge(image, 7))
with row("open", lambda: unixvol.open(image, 7)) as volume:
    row("5,000 creates", lambda: make_files(volume))
    row("10,000 stats, among 5,000 names", lambda: stat_files(volume))
