# What core.sh, rtl.sh and liveness.sh share: the crates that they measure, the program, and the texts of units. They set `top`, the
# repository, `folder`, a temporary one, and `program`, the folder of the program's crate.

# Copies these crates, and those below them, with their lines of crates.txt.
copy_crates() {
    wanted=$1
    while :; do
        below=$(for crate in $wanted; do sed -n "s/^$crate://p" "$top/crates.txt"; done)
        all=$(for crate in $wanted $below; do grep -o "^$crate:" "$top/crates.txt" || true; done | tr -d : | sort -u | tr '\n' ' ')
        [ "$all" = "$wanted" ] && break
        wanted=$all
    done
    mkdir -p "$folder/crates"
    for crate in $wanted; do
        (cd "$top" && tar cf - --exclude=out "crates/$crate") | (cd "$folder" && tar xf -)
        grep "^$crate:" "$top/crates.txt" >> "$folder/crates.txt"
    done
}

# Proves, builds and runs the program with these arguments, and sets `built`. It stands in the program's folder from then on.
build() {
    cd "$program"
    rt run -- "$@" > "$folder/log" 2>&1 || { cat "$folder/log"; exit 1; }
    built=$(find "$program/out" -maxdepth 1 -type f -perm -u+x | head -n 1)
}

# The most memory that a run of the program takes, in KiB.
peak() {
    /usr/bin/time -o "$folder/peak" -f '%M' "$built" "$@" 1 > /dev/null
    tail -n 1 "$folder/peak"
}

# The text of a unit of a shape, with as many nodes as the shape lets, up to this number.
text() {
    awk -v shape="$1" -v nodes="$2" 'BEGIN {
        if (shape == "long") {
            # One function of many statements.
            printf "int f(int a) { register int x, y; x = a; y = 1;\n"
            for (n = 0; n < int((nodes - 12) / 20); n++) printf "x = x * 3 + (a && y != %d); if (x > y) { y = x - a; }\n", n % 100
            printf "return x; }\n"
        }
        if (shape == "deep") {
            # Expressions as deep as a text may have them.
            printf "int f(int a) { register int x, y; x = a; y = 1;\n"
            for (n = 0; n < int((nodes - 12) / 483); n++) {
                printf "x = "
                for (level = 0; level < 120; level++) printf "(a || y) + ("
                printf "x"
                for (level = 0; level < 120; level++) printf ")"
                printf ";\n"
            }
            printf "return x; }\n"
        }
        if (shape == "arms") {
            # One `if` of 1,023 arms at the full size.
            printf "int f(int a) { register int x; x = a;\n"
            for (n = 0; n < int((nodes - 8) / 64); n++) {
                printf "%sif (a == %d && x != 0) {", n ? " else " : "", n
                for (k = 0; k < 8; k++) printf " x = x * 3 + a;"
                printf " }\n"
            }
            printf "return x; }\n"
        }
        if (shape == "small") {
            # Many functions of a few statements.
            for (n = 0; n < int(nodes / 15); n++) printf "int f%d(int a) { int x = a; if (x > %d) { x = x - 1; } return x; }\n", n, n % 100
        }
    }'
}
