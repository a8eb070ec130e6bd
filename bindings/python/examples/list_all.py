"""list_all.py EDITION IMAGE: lists all files of a volume, as `ls -lR` does."""

import sys

import unixvol

with unixvol.open(sys.argv[2], int(sys.argv[1])) as volume:
    for folder, folders, files in volume.root.walk():
        print(f"{folder}:")
        for path in (folder / name for name in sorted(folders + files)):
            stat = path.stat()
            print(f"{stat.mode} {stat.links:3} {stat.uid:3} {stat.size:7} {stat.modified:%Y-%m-%d %H:%M} {path.name}")
