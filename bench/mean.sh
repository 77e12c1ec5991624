#!/bin/sh
# How many turns of a source program `ccelf mean` takes in a second of processor time, by the program that the gate has built,
# and how long the same text takes as gcc -O0 compiles it: see README.md beside this file.
set -eu

top=$(cd "$(dirname "$0")/.." && pwd)
ccelf=$top/crates/ccelf/out/ccelf
[ -x "$ccelf" ] || { echo 'ccelf is not built: rt ci builds it'; exit 1; }
folder=$(mktemp -d)
trap 'rm -rf "$folder"' EXIT

# A loop over a `register` local: two turns for each number.
cat > "$folder/plain.c" <<'END_OF_TEXT'
int main(void) { register int n; n = 0; while (n != 50000000) { n = n + 1; } return 0; }
END_OF_TEXT
# A loop that stores into an array and loads from it: three turns for each number.
cat > "$folder/blocks.c" <<'END_OF_TEXT'
int a[1024];
int main(void) { int i; i = 0; while (i != 20000000) { a[i & 1023] = i; i = a[i & 1023] + 1; } return 0; }
END_OF_TEXT
# Calls: five turns for each number.
cat > "$folder/calls.c" <<'END_OF_TEXT'
int next(int n) { int m; m = n + 1; return m; }
int main(void) { register int n; n = 0; while (n != 10000000) { n = next(n); ; } return 0; }
END_OF_TEXT

# What a program took of the processor, in seconds.
spent() {
    /usr/bin/time -o "$folder/time" -f %U "$@" > "$folder/said" 2>&1 || true
    tail -n 1 "$folder/time"
}

# The first number is how many turns the text takes, but for a few.
while read -r name turns; do
    seconds=$(spent "$ccelf" mean 4000000000 "$folder/$name.c")
    grep -qx 'exit 0' "$folder/said" || { echo "$name: $(cat "$folder/said")"; exit 1; }
    peak=$(/usr/bin/time -f %M "$ccelf" mean 4000000000 "$folder/$name.c" 2>&1 > /dev/null | tail -n 1)
    native='gcc is not installed'
    if command -v gcc > /dev/null; then
        gcc -O0 -w -o "$folder/$name" "$folder/$name.c"
        native="gcc -O0 $(spent "$folder/$name") s"
    fi
    echo "$name $turns $seconds $peak $native" |
        awk '{ printf "%-7s %12.0f turns a second, %d KiB: %.2f s for %d turns (", $1, $2 / $3, $4, $3, $2; for (i = 5; i <= NF; i++) printf "%s%s", $i, i < NF ? " " : ")\n" }'
done <<'END_OF_LIST'
plain 100000000
blocks 60000000
calls 50000000
END_OF_LIST
