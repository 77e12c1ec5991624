#!/bin/sh
# Times `CoreGen` on units of up to 65,536 nodes of four shapes, beside parsing and checking them: see README.md beside this file.
# rt and /usr/bin/time have to be on the path.
set -eu

top=$(cd "$(dirname "$0")/.." && pwd)
folder=$(mktemp -d)
trap 'rm -rf "$folder"' EXIT
program=$folder/crates/core_bench

mkdir -p "$program/src"
. "$top/bench/units.sh"
copy_crates 'text_parser typing_units core_gen'
echo 'core_bench: pass_core text_parser clight_unit typing_units core_lang core_gen anyhow' >> "$folder/crates.txt"

cat > "$program/src/main.rt" <<'END'
//! Parses and checks a file, and makes a unit of Core of it where it is asked to, so many times. The arguments are `types` or `core`,
//! the file and how often. It prints the unit's nodes, and how long both took each time.
#![tactic(auto)]

use anyhow::{Result, anyhow};
use clight_unit::ClightUnit;
use core_gen::CoreGen;
use pass_core::Pass;
use std::alloc::Global;
use std::time::{Duration, Instant};
use std::{env, fs};
use text_parser::parse;
use typing_units::check;

fn micros(time: Duration) -> u64 {
    time.as_secs()
        .saturating_mul(1_000_000)
        .saturating_add(u64::from(time.subsec_micros()))
}

fn unit(alloc: Global, text: &[u8]) -> Result<ClightUnit> {
    let tree = parse(alloc, text).map_err(|_| anyhow!("no unit's text"))?;
    check(alloc, &tree).map_err(|_| anyhow!("its types are wrong"))
}

// How long parsing and checking took, and how long the pass.
fn once(rt: &HostRuntime, text: &[u8], with_core: bool) -> Result<(u64, u64, u32)> {
    let start = Instant::now(rt)?;
    let unit = unit(rt.alloc(), text)?;
    let types = micros(start.elapsed(rt)?);
    if !with_core {
        return Ok((types, 0, unit.nodes()));
    }
    let start = Instant::now(rt)?;
    let made = CoreGen.run(rt.alloc(), &unit)?;
    let core = micros(start.elapsed(rt)?);
    if made.functions.is_empty() {
        return Err(anyhow!("no functions"));
    }
    Ok((types, core, unit.nodes()))
}

fn main(rt: HostRuntime) -> Result<()> {
    let mut words = env::args(&rt)?;
    let _ = words.next();
    let what = words.next().ok_or(anyhow!("types or core"))?;
    let path = words.next().ok_or(anyhow!("no file"))?;
    let times = words.next().ok_or(anyhow!("no number"))?;
    let times = times.as_str().parse::<u32>().unwrap_or(1);
    let text = fs::read(&rt, path.as_str())?;
    let mut types = 0u64;
    let mut core = 0u64;
    let mut nodes = 0;
    for _ in 0..times {
        let (of_types, of_core, found) = once(&rt, text.as_slice(), what.as_str() == "core")?;
        types = types.saturating_add(of_types);
        core = core.saturating_add(of_core);
        nodes = found;
    }
    let each = u64::from(times.max(1));
    println!(rt; "{} {} {}", nodes, types / each, core / each)?;
    Ok(())
}
END

text long 1000 > "$folder/first.c"
build core "$folder/first.c" 1

for shape in long deep arms small; do
    last=0
    for size in 16384 32768 65536; do
        text "$shape" "$size" > "$folder/unit.c"
        found=$("$built" core "$folder/unit.c" 20) || { echo "no unit: $shape $size"; exit 1; }
        echo "$shape $found $last $(peak types "$folder/unit.c") $(peak core "$folder/unit.c")" | awk '{
            growth = $5 > 0 ? sprintf(", %.2f times the last", $4 / $5) : ""
            printf "%-6s %6d nodes: parse and check %7d us, CoreGen %6d us (%.2f of it)%s; %d KiB without, %d KiB with\n", $1, $2, $3, $4, $4 / $3, growth, $6, $7
        }'
        last=$(echo "$found" | awk '{ print $3 }')
    done
done
