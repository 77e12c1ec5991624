#!/bin/sh
# Times `parse` on generated texts of 64 KiB up to 1 MiB, `ccelf compile` where the gate has built it, and `tcc -c` on the same
# files where tcc is installed: see README.md beside this file.
set -eu

top=$(cd "$(dirname "$0")/.." && pwd)
folder=$(mktemp -d)
trap 'rm -rf "$folder"' EXIT
program=$folder/crates/parse_bench

mkdir -p "$program/src"
(cd "$top" && tar cf - --exclude=out crates/cc_base crates/text_grammar crates/text_parser) | (cd "$folder" && tar xf -)
grep -E '^(cc_base|text_grammar|text_parser):' "$top/crates.txt" > "$folder/crates.txt"
echo 'parse_bench: text_parser' >> "$folder/crates.txt"

cat > "$program/src/main.rt" <<'END'
//! Parses the file that the first argument names, and says whether it is a unit's text.
#![tactic(auto)]

use text_parser::parse;
use std::{env, fs, io};

fn main(rt: HostRuntime) -> io::Result<()> {
    let mut words = env::args(&rt)?;
    let _ = words.next();
    let Some(path) = words.next() else {
        return Ok(());
    };
    let text = fs::read(&rt, path.as_str())?;
    match parse(rt.alloc(), text.as_slice()) {
        Ok(tree) => println!(rt; "{} declarations", tree.len()),
        Err(_) => println!(rt; "a fault"),
    }
}
END

# Functions with some of everything, up to so many bytes.
text() {
    awk -v most="$1" 'BEGIN {
        for (n = 0; size < most - 400; n++) {
            line = sprintf("struct node%d { int key, *next[4]; char name[16]; };\n", n)
            line = line sprintf("static int table%d[] = { 1, 2 + 3 * 4, -5, (6 << 2) | 1, 0x1F & ~7, sizeof (int *) };\n", n)
            line = line sprintf("int find%d(struct node%d *p, int key) { register int i = 0;\n", n, n)
            line = line "  for (i = 0; i < 4; i = i + 1) { if (p->next[i] == 0 && key != p[i].key) { continue; } else { return table" n "[i] + key % 7; } }\n"
            line = line sprintf("  while (key > 0) { key = key - 1; i = find%d(p, key); } return -i; }\n", n)
            size += length(line)
            printf "%s", line
        }
    }'
}

cd "$program"
text 65536 > "$folder/first.c"
rt run -- "$folder/first.c" > "$folder/log" 2>&1 || { cat "$folder/log"; exit 1; }
built=$(find "$program/out" -maxdepth 1 -type f -perm -u+x | head -n 1)

# Times 20 runs of a command and says the time of one, how it has grown since the last size, and the peak of memory.
measured() {
    label=$1; bytes=$2; shift 2
    for _ in 1 2 3 4 5 6 7 8 9 10 11 12 13 14 15 16 17 18 19 20; do printf '%s\n' "$@"; done > "$folder/words"
    /usr/bin/time -o "$folder/time" -f '%U %S' xargs -n "$#" -a "$folder/words" env > /dev/null 2>&1 || true
    /usr/bin/time -o "$folder/peak" -f '%M' "$@" > /dev/null 2>&1 || true
    last=$(cat "$folder/last-$label" 2> /dev/null || echo 0)
    tail -n 1 "$folder/time" | awk -v last="$last" -v label="$label" -v bytes="$bytes" -v peak="$(tail -n 1 "$folder/peak")" -v kept="$folder/last-$label" '{
        each = ($1 + $2) / 20
        growth = last > 0 ? sprintf(", %.2f times the last", each / last) : ""
        printf "%-6s %8d bytes: %.4f s, %d KiB%s\n", label, bytes, each, peak, growth
        print each > kept
    }'
}

# The whole program, as the gate builds it. The texts are not of the form that it compiles, so it reads, parses and checks them.
ccelf=$top/crates/ccelf/out/ccelf
if [ ! -x "$ccelf" ]; then
    echo 'ccelf is not built (rt ci builds it), so types are skipped'
fi
if ! command -v tcc > /dev/null; then
    echo 'tcc is not installed, so it is skipped'
fi
for size in 65536 131072 262144 524288 1048576; do
    text "$size" > "$folder/$size.c"
    bytes=$(wc -c < "$folder/$size.c")
    found=$("$built" "$folder/$size.c")
    echo "$found" | grep -q declarations || { echo "no unit: $found"; exit 1; }
    measured parse "$bytes" "$built" "$folder/$size.c"
    if [ -x "$ccelf" ]; then
        measured types "$bytes" "$ccelf" compile "$folder/$size.c" "$folder/object"
    fi
    if command -v tcc > /dev/null; then
        measured tcc "$bytes" tcc -c -o "$folder/object" "$folder/$size.c"
    fi
done
