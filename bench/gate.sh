#!/usr/bin/env bash
# Prints the cost of the gate: processor and wall minutes by crate and by part, as measured from the processes of the run.
#
#   bench/gate.sh             runs the gate with nothing kept: `rt ci --anew`, or `rt ci` of a toolchain that keeps nothing from run to run
#   bench/gate.sh COMMAND..   runs this command instead (`rt ci`, `rt ci vol_free`)
#
# The parts: proof (of a crate), tests (the proof of its test functions), base (the check under which its wrong bodies are tried), bodies (the wrong bodies),
# build (of a program, with both compilers). Running, linking and testing by rt itself is the row `rt`. Times are read every half second: if a process ends
# between two readings, its last part is missing.
set -euo pipefail
cd "$(dirname "$0")/.."
if ((!$#)); then
    set -- "${RT:-rt}" ci
    words=$("$1" help 2>&1 || true)
    if [[ $words == *--anew* ]]; then set -- "$@" --anew; fi
fi

declare -A cost=() first=() last=() name=() kind=()
ticks=$(getconf CLK_TCK)

# Reads /proc/PID/stat into `parent`, `session`, `used` (ticks, including those of ended children) and `start`.
read_stat() {
    local line rest
    read -r line 2>/dev/null <"/proc/$1/stat" || return 1
    rest=(${line##*) })
    parent=${rest[1]} session=${rest[3]} used=$((rest[11] + rest[12] + rest[13] + rest[14])) start=${rest[19]}
}

# Sets `crate` and `part` of a process of the prover, from its words.
read_words() {
    local words=() word before='' over='' checked='' test='' made=''
    mapfile -d '' -t words 2>/dev/null <"/proc/$1/cmdline" || return 1
    crate=''
    for word in "${words[@]}"; do
        case $before in
        --crate-name) crate=$word ;;
        --incremental) over=$word ;;
        --crate-checked) checked=$word ;;
        -o) made=$word ;;
        esac
        [[ $word == --test ]] && test=1
        before=$word
    done
    [[ $crate ]] || return 1
    if [[ $over == */seed ]]; then part=base
    elif [[ $over ]]; then part=bodies
    elif [[ $checked ]]; then part=build
    elif [[ $test ]]; then part=tests
    elif [[ $made ]]; then part=proof
    else part=bodies; fi
}

# Adds up the processes that run now: a process that another process of the prover started counts for that one.
read_all() {
    local path pid comm key crate part parent session used start up
    local -A of=() spent=()
    for path in /proc/[0-9]*; do
        pid=${path#/proc/}
        read -r comm 2>/dev/null <"$path/comm" || continue
        [[ $comm == rattle ]] && read_stat "$pid" && [[ $session == "$run" ]] || continue
        of[$pid]=$parent spent[$pid]=$used
        key=$pid:$start
        if [[ ! ${name[$key]:-} ]]; then
            read_words "$pid" || continue
            name[$key]=$crate kind[$key]=$part first[$key]=$EPOCHREALTIME
        fi
        last[$key]=$EPOCHREALTIME cost[$key]=$used
    done
    for pid in "${!of[@]}"; do
        up=${of[$pid]}
        [[ ${of[$up]:-} ]] || continue
        read_stat "$up" || continue
        cost[$up:$start]=$((${cost[$up:$start]:-0} + ${spent[$pid]}))
        read_stat "$pid" && unset "cost[$pid:$start]" "first[$pid:$start]"
    done
}

began=$EPOCHREALTIME
setsid "$@" &
run=$!
while kill -0 "$run" 2>/dev/null; do
    read_all
    sleep 0.5
done
status=0
wait "$run" || status=$?
ended=$EPOCHREALTIME
room=$(mktemp)
trap 'rm -f "$room"' EXIT
times >"$room"

for key in "${!first[@]}"; do
    echo "${name[$key]} ${kind[$key]} ${cost[$key]:-0} ${first[$key]} ${last[$key]}"
done | awk -v ticks="$ticks" -v wall="$(awk -v a="$began" -v b="$ended" 'BEGIN { print b - a }')" -v all="$(tail -1 "$room")" '
    { used[$1, $2] += $3 / ticks; of[$1] += $3 / ticks; part[$2] += $3 / ticks; if (!($1 in from) || $4 < from[$1]) from[$1] = $4; if ($5 > to[$1]) to[$1] = $5 }
    function row(name, a, b, c, d, e, all, wall) { return sprintf("%-18s %8s %8s %8s %8s %8s %8s %8s", name, a, b, c, d, e, all, wall) }
    function minutes(seconds) { return sprintf("%.1f", seconds / 60) }
    END {
        print row("processor minutes", "proof", "tests", "base", "bodies", "build", "all", "wall")
        sort = "sort -k7,7nr"
        for (it in of) print row(it, minutes(used[it, "proof"]), minutes(used[it, "tests"]), minutes(used[it, "base"]), minutes(used[it, "bodies"]), minutes(used[it, "build"]), minutes(of[it]), minutes(to[it] - from[it])) | sort
        close(sort)
        split(all, parts, /[ms ]+/)
        total = parts[1] * 60 + parts[2] + parts[3] * 60 + parts[4]
        for (it in part) sum += part[it]
        print row("rt", "", "", "", "", "", minutes(total > sum ? total - sum : 0), "")
        print row("all", minutes(part["proof"]), minutes(part["tests"]), minutes(part["base"]), minutes(part["bodies"]), minutes(part["build"]), minutes(total > sum ? total : sum), minutes(wall))
    }'
echo "$(nproc) processors, $(awk '/MemTotal/ { printf "%d", $2 / 1048576 }' /proc/meminfo) GB of memory"
exit "$status"
