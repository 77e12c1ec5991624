#!/bin/sh
# Times decode of i386_code on four million instructions of mixed forms, beside objdump on the same bytes.
# rt, python3 and GNU objdump have to be on the path.
set -eu

top=$(cd "$(dirname "$0")/.." && pwd)
folder=$(mktemp -d)
trap 'rm -rf "$folder"' EXIT
program=$folder/crates/decode_bench

mkdir -p "$program/src" "$program/data"
(cd "$top" && tar cf - --exclude=out crates/cc_base crates/i386_code) | (cd "$folder" && tar xf -)
grep -E '^(cc_base|i386_code):' "$top/crates.txt" > "$folder/crates.txt"
echo 'decode_bench: i386_code anyhow' >> "$folder/crates.txt"

# The rows of the crate's own table of encodings, drawn at random, so that no branch can be foretold.
cat > "$folder/bytes.py" <<'END'
import random
import re
import sys

rows = open(sys.argv[1]).read().split("static ENCODINGS")[1].split("= [", 1)[1]
codes = [
    bytes(int(byte, 16) for byte in re.findall(r"0x(\w\w)\b", row))
    for row in re.findall(r"&\[([^\]]*)\],\s*Instr", rows)
]
order = random.Random(1)
with open(sys.argv[2], "wb") as file:
    for _ in range(4_000_000):
        file.write(order.choice(codes))
END
python3 "$folder/bytes.py" "$top/crates/i386_code/src/encodings.rt" "$program/data/code.bin"

cat > "$program/src/main.rt" <<'END'
// Decodes a file from its start to its end, and prints how many instructions that is a second.
#![tactic(auto)]

use anyhow::Result;
use i386_code::{Decoded, Instr, decode};
use std::fs;
use std::time::Instant;

// How many instructions the bytes are, and how many of them are returns.
fn count(bytes: &[u8]) -> (u64, u64) {
    let mut instrs = 0_u64;
    let mut returns = 0_u64;
    let mut at = 0_usize;
    for _ in 0..bytes.len() {
        if at >= bytes.len() {
            break;
        }
        let Decoded::Is(instr, length) = decode(&bytes[at..]) else {
            break;
        };
        instrs = instrs.saturating_add(1);
        if instr == Instr::Ret {
            returns = returns.saturating_add(1);
        }
        at = at.saturating_add(usize::from(length));
    }
    (instrs, returns)
}

fn main(rt: HostRuntime) -> Result<()> {
    let bytes = fs::read(&rt, "data/code.bin")?;
    for _ in 0..3 {
        let start = Instant::now(&rt)?;
        let (instrs, returns) = count(bytes.as_slice());
        let time = start.elapsed(&rt)?;
        let micros = time.as_secs().saturating_mul(1_000_000).saturating_add(u64::from(time.subsec_micros())).max(1);
        let each_second = instrs.saturating_mul(1_000_000) / micros;
        println!(rt; "decode: {instrs} instructions ({returns} returns) in {micros} us, {each_second} a second")?;
    }
    Ok(())
}
END

cat > "$folder/objdump.py" <<'END'
import subprocess
import sys
import time


def measured(path):
    """The seconds that objdump takes, and how many instructions it prints."""
    start = time.monotonic()
    done = subprocess.run(
        ["objdump", "-D", "-b", "binary", "-m", "i386", "--no-show-raw-insn", path],
        stdout=subprocess.PIPE,
        check=True,
    )
    return time.monotonic() - start, done.stdout.count(b":\t")


one = sys.argv[1] + ".one"
with open(one, "wb") as file:
    file.write(b"\xc3")
startup, _ = measured(one)
whole, instrs = measured(sys.argv[1])
micros = round((whole - startup) * 1e6)
print(f"objdump: {instrs} instructions in {micros} us beside its start of {round(startup * 1e6)} us, {round(instrs / (whole - startup))} a second")
END

(cd "$program" && rt run 2> "$folder/log") || { cat "$folder/log" >&2; exit 1; }
python3 "$folder/objdump.py" "$program/data/code.bin"
