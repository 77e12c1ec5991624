#!/bin/sh
# How many loads and stores, and how many activations made and ended, block_mem does in a second of processor time, and
# how much memory a block of 8 MiB takes. It writes a program into a temporary folder beside copies of the crates, and
# builds it with rt.
set -eu
root=$(cd "$(dirname "$0")/.." && pwd)
work=$(mktemp -d)
trap 'rm -rf "$work"' EXIT
mkdir -p "$work/crates"
for crate in cc_base block_mem; do
    mkdir "$work/crates/$crate"
    for part in src specs proofs; do
        if [ -d "$root/crates/$crate/$part" ]; then
            cp -r "$root/crates/$crate/$part" "$work/crates/$crate/"
        fi
    done
done
git init -q "$work"
printf 'cc_base: itoa thiserror\nblock_mem: cc_base\nbench: block_mem\n' > "$work/crates.txt"
mkdir -p "$work/crates/bench/src"
cat > "$work/crates/bench/src/main.rt" <<'END'
//! A benchmark of block_mem: the first argument says what is done, and the second how often.
#![tactic(auto)]

use block_mem::{BlockName, Memory, Value, Width};
use std::env;
use std::io;

fn place(activation: u64, index: u32, offset: u32) -> Value {
    Value::Ptr {
        block: BlockName::Local { activation, index },
        offset,
    }
}

fn make(memory: &mut Memory, activation: u64, index: u32, size: u32) -> bool {
    let name = BlockName::Local { activation, index };
    if memory.is_live(name) {
        return false;
    }
    memory.alloc_block(name, size, true).is_ok()
}

fn end(memory: &mut Memory, activation: u64, index: u32) {
    let name = BlockName::Local { activation, index };
    if memory.is_live(name) {
        memory.free_block(name);
    }
}

// A store and a load of each of `blocks` blocks in turn, `times` times.
fn access(memory: &mut Memory, width: Width, blocks: u32, times: u32) -> u32 {
    let mut sum = 0u32;
    for turn in 0..times {
        let at = place(0, turn % blocks.max(1), turn % 16 * 4);
        let _ = memory.store(&at, width, &Value::Int(turn));
        if let Some(Value::Int(word)) = memory.load(&at, width) {
            sum = sum.wrapping_add(word);
        }
    }
    sum
}

fn main(rt: HostRuntime) -> io::Result<()> {
    let mut words = env::args(&rt)?;
    let _ = words.next();
    let what = words.next();
    let what = what.as_ref().map_or("", |word| word.as_str());
    let times = words.next();
    let times = times
        .as_ref()
        .map_or(0, |word| word.as_str().parse::<u32>().unwrap_or(0));
    let Ok(mut memory) = Memory::new(rt.alloc()) else {
        return Ok(());
    };
    let mut sum = 0u32;
    match what {
        "byte" | "word" | "many" => {
            let blocks = if what == "many" { 4000 } else { 8 };
            for index in 0..blocks {
                let _ = make(&mut memory, 0, index, 64);
            }
            let width = if what == "byte" { Width::Signed8 } else { Width::Word };
            sum = access(&mut memory, width, blocks, times);
        }
        "pointer" => {
            let _ = make(&mut memory, 0, 0, 64);
            for turn in 0..times {
                let at = place(0, 0, turn % 16 * 4);
                let _ = memory.store(&at, Width::Pointer, &at);
                if memory.load(&at, Width::Pointer) == Some(at) {
                    sum = sum.wrapping_add(1);
                }
            }
        }
        "calls" => {
            for call in 0..times {
                for index in 0..4 {
                    let _ = make(&mut memory, u64::from(call), index, 4);
                }
                for index in 0..4 {
                    end(&mut memory, u64::from(call), index);
                }
            }
        }
        _ => {
            let _ = make(&mut memory, 0, 0, 8_388_608);
            for turn in 0..times {
                let at = place(0, 0, turn % 2_097_152 * 4);
                let _ = memory.store(&at, Width::Word, &Value::Int(turn));
            }
        }
    }
    println!(rt; "{sum}")
}
END
cd "$work/crates/bench"
rt try -- none 0 > "$work/log" 2>&1 || { cat "$work/log"; exit 1; }
rt run -- none 0 > "$work/log" 2>&1 || { cat "$work/log"; exit 1; }
program=$(find "$work/crates/bench/out" -maxdepth 1 -type f -perm -u+x | head -n 1)
for what in byte word many pointer calls; do
    times=20000000
    [ "$what" = calls ] && times=2000000
    seconds=$(/usr/bin/time -f %U "$program" "$what" "$times" 2>&1 > /dev/null)
    each='pairs of a store and a load'
    [ "$what" = calls ] && each='activations with four locals'
    awk -v what="$what" -v each="$each" -v n="$times" -v t="$seconds" \
        'BEGIN { printf "%-8s %12.0f %s a second\n", what, n / t, each }'
done
/usr/bin/time -f 'a block of 8 MiB: %M KiB' "$program" large 2097152 > /dev/null
