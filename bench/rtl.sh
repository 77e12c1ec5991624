#!/bin/sh
# Times `RtlGen` on units of up to 65,536 nodes of four shapes, beside `CoreGen` and beside parsing and checking them, and counts the
# nodes of Rtl for each hundred nodes of the source: see README.md beside this file. rt and /usr/bin/time have to be on the path.
set -eu

top=$(cd "$(dirname "$0")/.." && pwd)
folder=$(mktemp -d)
trap 'rm -rf "$folder"' EXIT
program=$folder/crates/rtl_bench

mkdir -p "$program/src"
. "$top/bench/units.sh"
copy_crates 'text_parser typing_units core_gen rtl_gen'
echo 'rtl_bench: pass_core text_parser clight_unit typing_units core_lang core_gen rtl_lang rtl_gen anyhow' >> "$folder/crates.txt"

cat > "$program/src/main.rt" <<'END_OF_MAIN'
//! Parses and checks a file, makes a unit of Core of it and then one of Rtl where it is asked to, so many times. The arguments are
//! `types`, `core`, `rtl` or `kinds`, the file and how often. It prints the unit's nodes, and how long each part took each time; with
//! `kinds` the nodes of the unit and of Rtl by kind.
#![tactic(auto)]

mod kinds;

use anyhow::{Result, anyhow};
use clight_unit::ClightUnit;
use core_gen::CoreGen;
use core_lang::CoreUnit;
use kinds::{Kinds, kinds_of};
use pass_core::Pass;
use rtl_gen::RtlGen;
use rtl_lang::RtlUnit;
use std::alloc::Global;
use std::time::{Duration, Instant};
use std::{env, fs};
use text_parser::parse;
use typing_units::check;

/// How far a run goes.
#[derive(Clone, Copy, PartialEq, Eq)]
enum Goal {
    Types,
    Core,
    Rtl,
}

/// How long each part took, in microseconds.
#[derive(Clone, Copy)]
struct Times {
    types: u64,
    core: u64,
    rtl: u64,
}

fn micros(time: Duration) -> u64 {
    time.as_secs()
        .saturating_mul(1_000_000)
        .saturating_add(u64::from(time.subsec_micros()))
}

fn unit(alloc: Global, text: &[u8]) -> Result<ClightUnit> {
    let tree = parse(alloc, text).map_err(|_| anyhow!("no unit's text"))?;
    check(alloc, &tree).map_err(|_| anyhow!("its types are wrong"))
}

fn rtl(rt: &HostRuntime, unit: &CoreUnit) -> Result<u64> {
    let start = Instant::now(rt)?;
    let made = RtlGen.run(rt.alloc(), unit)?;
    let time = micros(start.elapsed(rt)?);
    if made.functions.is_empty() {
        return Err(anyhow!("no functions"));
    }
    Ok(time)
}

fn once(rt: &HostRuntime, text: &[u8], goal: Goal) -> Result<(Times, u32)> {
    let start = Instant::now(rt)?;
    let unit = unit(rt.alloc(), text)?;
    let mut times = Times {
        types: micros(start.elapsed(rt)?),
        core: 0,
        rtl: 0,
    };
    if goal == Goal::Types {
        return Ok((times, unit.nodes()));
    }
    let start = Instant::now(rt)?;
    let made = CoreGen.run(rt.alloc(), &unit)?;
    times.core = micros(start.elapsed(rt)?);
    if goal == Goal::Rtl {
        times.rtl = rtl(rt, &made)?;
    }
    Ok((times, unit.nodes()))
}

fn timed(rt: &HostRuntime, text: &[u8], goal: Goal, times: u32) -> Result<()> {
    let mut sum = Times {
        types: 0,
        core: 0,
        rtl: 0,
    };
    let mut nodes = 0;
    for _ in 0..times {
        let (took, found) = once(rt, text, goal)?;
        sum.types = sum.types.saturating_add(took.types);
        sum.core = sum.core.saturating_add(took.core);
        sum.rtl = sum.rtl.saturating_add(took.rtl);
        nodes = found;
    }
    let each = u64::from(times.max(1));
    println!(rt; "{} {} {} {}", nodes, sum.types / each, sum.core / each, sum.rtl / each)?;
    Ok(())
}

fn rtl_unit(alloc: Global, unit: &ClightUnit) -> Result<RtlUnit> {
    let core = CoreGen.run(alloc, unit)?;
    Ok(RtlGen.run(alloc, &core)?)
}

fn counted(rt: &HostRuntime, text: &[u8]) -> Result<()> {
    let unit = unit(rt.alloc(), text)?;
    let Kinds {
        nops,
        constants,
        addresses,
        locals,
        applies,
        loads,
        stores,
        calls,
        branches,
        returns,
    } = kinds_of(&rtl_unit(rt.alloc(), &unit)?);
    println!(rt; "{} {nops} {constants} {addresses} {locals} {applies} {loads} {stores} {calls} {branches} {returns}", unit.nodes())?;
    Ok(())
}

fn main(rt: HostRuntime) -> Result<()> {
    let mut words = env::args(&rt)?;
    let _ = words.next();
    let what = words.next().ok_or(anyhow!("types, core, rtl or kinds"))?;
    let path = words.next().ok_or(anyhow!("no file"))?;
    let times = words.next().ok_or(anyhow!("no number"))?;
    let times = times.as_str().parse::<u32>().unwrap_or(1);
    let text = fs::read(&rt, path.as_str())?;
    match what.as_str() {
        "types" => timed(&rt, text.as_slice(), Goal::Types, times),
        "core" => timed(&rt, text.as_slice(), Goal::Core, times),
        "rtl" => timed(&rt, text.as_slice(), Goal::Rtl, times),
        _ => counted(&rt, text.as_slice()),
    }
}
END_OF_MAIN

cat > "$program/src/kinds.rt" <<'END_OF_KINDS'
// The nodes of a unit of Rtl by kind.
use rtl_lang::{RtlNode, RtlUnit};

/// How many nodes there are of each kind.
#[derive(Clone, Copy)]
pub struct Kinds {
    pub nops: u32,
    pub constants: u32,
    pub addresses: u32,
    pub locals: u32,
    pub applies: u32,
    pub loads: u32,
    pub stores: u32,
    pub calls: u32,
    pub branches: u32,
    pub returns: u32,
}

fn count(kinds: &mut Kinds, node: &RtlNode) {
    let of_kind = match node {
        RtlNode::Nop { .. } => &mut kinds.nops,
        RtlNode::Const { .. } => &mut kinds.constants,
        RtlNode::Address { .. } => &mut kinds.addresses,
        RtlNode::Local { .. } => &mut kinds.locals,
        RtlNode::Apply { .. } => &mut kinds.applies,
        RtlNode::Load { .. } => &mut kinds.loads,
        RtlNode::Store { .. } => &mut kinds.stores,
        RtlNode::Call { .. } => &mut kinds.calls,
        RtlNode::Branch { .. } => &mut kinds.branches,
        RtlNode::Return { .. } => &mut kinds.returns,
    };
    *of_kind = of_kind.saturating_add(1);
}

pub fn kinds_of(unit: &RtlUnit) -> Kinds {
    let mut kinds = Kinds {
        nops: 0,
        constants: 0,
        addresses: 0,
        locals: 0,
        applies: 0,
        loads: 0,
        stores: 0,
        calls: 0,
        branches: 0,
        returns: 0,
    };
    for function in unit.functions.as_slice() {
        for node in function.parts().graph.as_slice() {
            count(&mut kinds, node);
        }
    }
    kinds
}
END_OF_KINDS

text long 1000 > "$folder/first.c"
build rtl "$folder/first.c" 1

for shape in long deep arms small; do
    last=0
    for size in 16384 32768 65536; do
        text "$shape" "$size" > "$folder/unit.c"
        found=$("$built" rtl "$folder/unit.c" 20) || { echo "no unit: $shape $size"; exit 1; }
        echo "$shape $found $last $(peak types "$folder/unit.c") $(peak core "$folder/unit.c") $(peak rtl "$folder/unit.c")" | awk '{
            growth = $6 > 0 ? sprintf(", %.2f times the last", $5 / $6) : ""
            printf "%-6s %6d nodes: parse and check %7d us, CoreGen %6d us, RtlGen %6d us (%.2f of parse and check, %.2f of CoreGen)%s; %d KiB, %d KiB with Core, %d KiB with Rtl\n", $1, $2, $3, $4, $5, $5 / $3, $5 / $4, growth, $7, $8, $9
        }'
        last=$(echo "$found" | awk '{ print $4 }')
    done
done

# Of each shape at the whole size: the nodes of Rtl for each hundred nodes of the source, by kind.
printf '%-6s %7s %6s %6s %7s %6s %6s %6s %6s %6s %6s %6s %6s\n' shape source Nop Const Address Local Apply Load Store Call Branch Return all
for shape in long deep arms small; do
    text "$shape" 65536 > "$folder/unit.c"
    echo "$shape $("$built" kinds "$folder/unit.c" 1)" | awk '{
        printf "%-6s %7d", $1, $2
        for (kind = 3; kind <= 12; kind++) { printf " %6.2f", 100 * $kind / $2; all += $kind }
        printf " %6.2f\n", 100 * all / $2
    }'
done
