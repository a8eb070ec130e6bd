#!/usr/bin/env bash
# Removes what tools/place.sh installed into PREFIX, with the folders that it made, if nothing else is in them.
# Usage: tools/remove.sh PREFIX. DESTDIR, if it is set, is a folder in which PREFIX is.
set -euo pipefail
prefix=$(realpath -m "${1:?usage: $0 PREFIX}")
root=${DESTDIR:+$(realpath -m "$DESTDIR")}$prefix
files=$(cat "$root/share/unixvol/files" 2>/dev/null) || { echo "there is no list of what was installed: $root/share/unixvol/files" >&2; exit 1; }
cd "$root"
# The list is the last of the files, so that what couldn't be removed can be removed later.
while IFS= read -r path; do
    case $path in
        */ | share/unixvol/files) ;;
        *.py)
            folder=$(dirname "$path")/__pycache__
            rm -f "$path" "$folder/$(basename "$path" .py)".*.pyc
            [ ! -d "$folder" ] || rmdir --ignore-fail-on-non-empty "$folder"
            ;;
        *) rm -f "$path" ;;
    esac
done <<<"$files"
rm -f share/unixvol/files
tac <<<"$files" | while IFS= read -r path; do
    # Another program may have removed a folder, as pip does, or put a link in its place.
    case $path in */) [ ! -d "$path" ] || [ -L "${path%/}" ] || rmdir --ignore-fail-on-non-empty "$path" ;; esac
done
echo "removed from $root"
