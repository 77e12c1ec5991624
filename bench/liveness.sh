#!/bin/sh
# Times `live` on functions of up to 8,192 nodes of three shapes: see README.md beside this file. rt and /usr/bin/time have to be on
# the path.
set -eu

top=$(cd "$(dirname "$0")/.." && pwd)
folder=$(mktemp -d)
trap 'rm -rf "$folder"' EXIT
program=$folder/crates/liveness_bench

mkdir -p "$program/src"
. "$top/bench/units.sh"
copy_crates 'text_parser typing_units front_passes reg_live'
echo 'liveness_bench: pass_core text_parser clight_unit typing_units front_passes rtl_lang reg_live sqlite_items anyhow' >> "$folder/crates.txt"

cat > "$program/src/main.rt" <<'END'
//! Makes Rtl of a file and finds what is live in its functions, so many times. The arguments are the file and how often. It prints the
//! places, the temporaries in the lists, and how long one time took.
#![tactic(auto)]

use anyhow::{Result, anyhow};
use front_passes::front;
use pass_core::Pass;
use reg_live::{Lives, live};
use rtl_lang::RtlUnit;
use std::alloc::Global;
use std::time::{Duration, Instant};
use std::{env, fs};
use text_parser::parse;
use typing_units::check;

fn micros(time: Duration) -> u64 {
    time.as_secs()
        .saturating_mul(1_000_000)
        .saturating_add(u64::from(time.subsec_micros()))
}

fn rtl(alloc: Global, text: &[u8]) -> Result<RtlUnit> {
    let tree = parse(alloc, text).map_err(|_| anyhow!("no unit's text"))?;
    let unit = check(alloc, &tree).map_err(|_| anyhow!("its types are wrong"))?;
    Ok(front().run(alloc, &unit)?)
}

// How many temporaries the lists have.
fn listed(lives: &Lives) -> u64 {
    let mut sum = 0u64;
    for place in 0..lives.places() {
        sum = sum.saturating_add(lives.after(place).len() as u64);
    }
    sum
}

fn main(rt: HostRuntime) -> Result<()> {
    let mut words = env::args(&rt)?;
    let _ = words.next();
    let path = words.next().ok_or(anyhow!("no file"))?;
    let times = words.next().ok_or(anyhow!("no number"))?;
    let times = times.as_str().parse::<u32>().unwrap_or(1);
    let text = fs::read(&rt, path.as_str())?;
    let unit = rtl(rt.alloc(), text.as_slice())?;
    let mut took = 0u64;
    let mut places = 0u64;
    let mut members = 0u64;
    for function in unit.functions.as_slice() {
        for _ in 0..times {
            let start = Instant::now(&rt)?;
            let lives = live(rt.alloc(), function)?;
            took = took.saturating_add(micros(start.elapsed(&rt)?));
            places = lives.places() as u64;
            members = listed(&lives);
        }
    }
    println!(rt; "{} {} {}", places, members, took / u64::from(times.max(1)))?;
    Ok(())
}
END

# The text of a function of a shape, with about as many nodes as this number.
text() {
    awk -v shape="$1" -v nodes="$2" 'BEGIN {
        printf "int f(int a) { register int x, y, z;\n"
        if (shape == "many") for (n = 0; n < 200; n++) printf "register int v%d;\n", n
        printf "x = a; y = 1; z = 2;\n"
        if (shape == "straight") {
            for (n = 0; n < int((nodes - 8) / 3); n++) printf "x = x * 3 + y;\n"
        }
        if (shape == "loops") {
            # Loops in loops, five deep.
            for (n = 0; n < int((nodes - 8) / 30); n++) {
                for (level = 0; level < 5; level++) printf "while (x < %d) { x = x + z; ", level + n
                printf "y = y * 3 + x; z = z - 1;"
                for (level = 0; level < 5; level++) printf " }"
                printf "\n"
            }
        }
        if (shape == "many") {
            # 200 temporaries that live through a loop.
            for (n = 0; n < 200; n++) printf "v%d = a + %d;\n", n, n
            printf "while (x < 1000) { x = x + 1;\n"
            for (n = 0; n < int((nodes - 610) / 3); n++) printf "y = y * 3 + x;\n"
            printf "}\n"
            for (n = 0; n < 200; n++) printf "y = y + v%d;\n", n
        }
        printf "return x + y; }\n"
    }'
}

text straight 100 > "$folder/first.c"
build "$folder/first.c" 1

for shape in straight loops many; do
    last=0
    for size in 2048 4096 8192; do
        text "$shape" "$size" > "$folder/unit.c"
        found=$("$built" "$folder/unit.c" 20) || { echo "no unit: $shape $size"; exit 1; }
        echo "$shape $found $last $(peak "$folder/unit.c")" | awk '{
            growth = $5 > 0 ? sprintf(", %.2f times the last", $4 / $5) : ""
            printf "%-8s %5d places, %8d listed: live %6d us%s; peak %d KiB\n", $1, $2, $3, $4, growth, $6
        }'
        last=$(echo "$found" | awk '{ print $3 }')
    done
done
