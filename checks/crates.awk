# Whether docs/map.md has the crates of crates.txt: the same storeys and crates in the same order, and beside each crate what it
# stands on. Where a row says 'and what that stands on', or 'those', the crates below need not be told again.
# Usage: awk -f checks/crates.awk crates.txt docs/map.md. It prints what differs, and ends with 1 where something does.

function differs(text) {
    print text
    status = 1
}

# Notes that `crate` stands on each crate below `name` too.
function closes(crate, name,    low, number, all) {
    number = split(stands[name], all, " ")
    for (low = 1; low <= number; low++)
        if (all[low] in stands && !((crate, all[low]) in near)) {
            near[crate, all[low]] = 1
            closes(crate, all[low])
        }
}

# crates.txt: behind an empty line '# Storey: what it is', and then rows 'crate: what it stands on'
FNR == NR && /^$/ { ended = 1 }
FNR == NR && /^# / && ended {
    sub(/[:.].*/, "")
    wanted[++last] = $0
    ended = 0
}
FNR == NR && /^[a-z]/ {
    colon = index($0, ":")
    name = substr($0, 1, colon - 1)
    sub(/ .*/, "", name)
    wanted[++last] = name
    stands[name] = substr($0, colon + 1)
}
FNR == NR { next }

# The map: '### Storey', and a row '| `crate` | what it stands on | ..'
/^## / { within = $0 == "## The crates" }
within && /^### / { found[++count] = substr($0, 3) }
within && /^\| `/ {
    split($0, cells, "|")
    name = cells[2]
    gsub(/[` ]/, "", name)
    found[++count] = name
    told[name] = cells[3]
}

END {
    for (at = 1; at <= last || at <= count; at++)
        if (wanted[at] != found[at]) {
            differs("row " at " of crates.txt is '" wanted[at] "', and of the map '" found[at] "'")
            break
        }
    for (name in told) {
        if (!(name in stands)) continue
        number = split(told[name], parts, "`")
        for (at = 2; at <= number; at += 2) {
            near[name, parts[at]] = 1
            named[name, parts[at]] = 1
        }
        if (told[name] ~ /and what (that stands|those stand) on/)
            for (at = 2; at <= number; at += 2) closes(name, parts[at])
        number = split(stands[name], all, " ")
        for (at = 1; at <= number; at++) {
            own[name, all[at]] = 1
            if (all[at] in stands && !((name, all[at]) in near)) differs(name " stands on " all[at] ", and the map does not say so")
        }
        for (pair in named) {
            split(pair, ends, SUBSEP)
            if (ends[1] == name && !(pair in own)) differs("the map says that " name " stands on " ends[2])
        }
    }
    exit status
}
