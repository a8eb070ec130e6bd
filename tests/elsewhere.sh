# Shared by tests/ports.sh and tests/page.sh, which run the rows of other scripts through programs that run elsewhere than `make build` leaves them. It is read
# with `.` at the top of the repository. `room` is a folder that is removed when the script ends.
room=$(mktemp -d)
trap 'rm -rf "$room"' EXIT
version=$(sed -n 's/^version = "\(.*\)"$/\1/p' bindings/python/pyproject.toml)
export ELSEWHERE=yes
passed=0
failed=0
skipped=0

# has LABEL WANTED TEXT: the two texts are equal
has() {
    if [ "$2" = "$3" ]; then
        passed=$((passed + 1))
    else
        failed=$((failed + 1))
        echo "failed: $1: $3, wanted $2"
    fi
}

# skips WHAT: says that WHAT is skipped
skips() {
    skipped=$((skipped + 1))
    echo "skipped: $1"
    return 1
}

# stands_for WORD..: a script in the program's place, since the rows run one word; it is left as $room/unixvol
stands_for() {
    printf '#!/bin/sh\nexec %s "$@"\n' "${*@Q}" >"$room/unixvol"
    chmod +x "$room/unixvol"
}

# runs LABEL SCRIPT PROGRAM: runs the rows of a script, and counts them
runs() {
    local last
    "$2" "$3" >"$room/output" 2>&1 </dev/null
    has "$1: the status" 0 $?
    last=$(tail -n 1 "$room/output")
    echo "$1: $last"
    if [[ $last =~ ^([0-9]+)\ passed,\ ([0-9]+)\ failed ]]; then
        passed=$((passed + BASH_REMATCH[1]))
        failed=$((failed + BASH_REMATCH[2]))
    fi
    sed '$d; s/^/    /' "$room/output"
}

# ends: prints the counts, and ends the script
ends() {
    echo "$passed passed, $failed failed, $skipped skipped"
    [ "$failed" = 0 ]
    exit
}
