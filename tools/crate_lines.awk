# Prints the lines of crates.txt for the crate that `crate` names and each crate that it needs, lowest first.
function take(name, list, count, k) {
    if (!(name in line) || name in taken) return
    taken[name]
    count = split(deps[name], list, " ")
    for (k = 1; k <= count; k++) take(list[k])
    print line[name]
}
/^[^#]/ { split($0, half, ":"); split(half[1], words, " "); line[words[1]] = $0; deps[words[1]] = half[2] }
END { take(crate) }
