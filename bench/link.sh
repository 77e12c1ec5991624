#!/bin/sh
# Times the linker on generated objects beside ld on the same files: see README.md beside this file.
# rt and /usr/bin/time have to be on the path. GNU ld is left out where it is missing.
set -eu

top=$(cd "$(dirname "$0")/.." && pwd)
folder=$(mktemp -d)
trap 'rm -rf "$folder"' EXIT
program=$folder/crates/link_bench

mkdir -p "$program/src" "$program/proofs/linked"
for crate in cc_base pass_core text_grammar text_parser second_form i386_machine i386_steps elf_file elf_linker elf_loader second_code; do
    (cd "$top" && tar cf - --exclude=out "crates/$crate") | (cd "$folder" && tar xf -)
    grep "^$crate:" "$top/crates.txt" >> "$folder/crates.txt"
done
echo 'link_bench: text_parser elf_file elf_linker second_code anyhow' >> "$folder/crates.txt"

cat > "$program/src/main.rt" <<'EOF'
// Makes the objects of units that call each other in a chain, or links them. The arguments are what is done, how many
// objects there are, and how many statements each unit has.
#![tactic(auto)]

ghost use Rattle.std.specs.Prelude.{IfOk};
ghost use Rattle.elf_file.specs.Image.{WellFormedImage};

use anyhow::{Result, anyhow};
use text_parser::parse;
use elf_file::{ImageParts, read_object, write_image, write_object};
use elf_linker::{Inputs, link, runtime_parts};
use second_code::unit_object;
use std::alloc::Global;
use std::env;
use std::fs;
use std::time::{Duration, Instant};

// The text of the unit with this number, where the last one calls none.
fn unit(alloc: Global, number: u32, last: u32, statements: u32) -> Result<String> {
    let mut text = String::new(alloc);
    if number < last {
        text.push_str(format!(in alloc; "int u{}(void); ", number.saturating_add(1))?.as_str())?;
    }
    if number == 0 {
        text.push_str("int main(void) { ")?;
    } else {
        text.push_str(format!(in alloc; "int u{number}(void) {{ ")?.as_str())?;
    }
    for _ in 0..statements {
        text.push_str("putbyte(65); ")?;
    }
    if number < last {
        text.push_str(format!(in alloc; "u{}(); ", number.saturating_add(1))?.as_str())?;
    }
    text.push_str("return 0; }")?;
    Ok(text)
}

fn make(rt: &HostRuntime, count: u32, statements: u32) -> Result<()> {
    let alloc = rt.alloc();
    for number in 0..count {
        let text = unit(alloc, number, count.saturating_sub(1), statements)?;
        let tree = parse(alloc, text.as_str().as_bytes()).map_err(|_| anyhow!("no text"))?;
        let file = unit_object(alloc, &tree)?.ok_or(anyhow!("no unit"))?;
        fs::write(rt, format!(in alloc; "u{number}.o")?.as_str(), file.as_slice())?;
    }
    let runtime = write_object(alloc, &runtime_parts(alloc)?)?;
    fs::write(rt, "runtime.o", runtime.as_slice())?;
    Ok(())
}

fn read(rt: &HostRuntime, count: u32) -> Result<Vec<Vec<u8>>> {
    let alloc = rt.alloc();
    let mut files = Vec::new(alloc);
    for number in 0..count {
        files.push(fs::read(rt, format!(in alloc; "u{number}.o")?.as_str())?)?;
    }
    Ok(files)
}

fn micros(time: Duration) -> u64 {
    time.as_secs().saturating_mul(1_000_000).saturating_add(u64::from(time.subsec_micros()))
}

// The image of these objects. It prints how long reading their parts and linking took.
fn linked(rt: &HostRuntime, files: &[Vec<u8>]) -> Result<ImageParts>
    ensures { IfOk result WellFormedImage }
{
    if files.len() > 4096 {
        return Err(anyhow!("too many objects"));
    }
    let start = Instant::now(rt)?;
    let mut inputs = Inputs::new(rt.alloc());
    for file in files {
        if file.len() > 100_000_000 {
            return Err(anyhow!("a long object"));
        }
        inputs.add(read_object(rt.alloc(), file.as_slice())?)?;
    }
    let read = start.elapsed(rt)?;
    let start = Instant::now(rt)?;
    let image = link(rt.alloc(), &inputs)?;
    let time = start.elapsed(rt)?;
    println!(rt; "read {:>8} us, link {:>8} us", micros(read), micros(time))?;
    Ok(image)
}

fn main(rt: HostRuntime) -> Result<()> {
    let mut words = env::args(&rt)?;
    let _ = words.next();
    let what = words.next();
    let what = what.as_ref().map_or("", |word| word.as_str());
    let count = words.next();
    let count = count.as_ref().map_or(0, |word| word.as_str().parse::<u32>().unwrap_or(0));
    let statements = words.next();
    let statements = statements.as_ref().map_or(0, |word| word.as_str().parse::<u32>().unwrap_or(0));
    if what == "make" {
        make(&rt, count, statements)?;
    }
    if what == "link" {
        let files = read(&rt, count)?;
        let image = linked(&rt, files.as_slice())?;
        let file = write_image(rt.alloc(), &image)?;
        fs::write(&rt, "out", file.as_slice())?;
    }
    Ok(())
}
EOF

cat > "$program/proofs/linked/Invariants.antt" <<'EOF'
use Rattle.std.proofs.Common.{◌≡◌, length}
use Rattle.link_bench.proofs.linked.Given as goal

abbrev pub invariant-loop-file : goal.invariant-loop-file
invariant-loop-file l = length l.inputs ≡ l.file-index
EOF
echo > "$program/proofs/Lib.antt"

(cd "$program" && rt run 2> "$folder/log") || { cat "$folder/log" >&2; exit 1; }
built=$(find "$program/out" -maxdepth 1 -type f -perm -u+x | head -n 1)

for statements in 30 300; do
    for count in 1 16 256 4096; do
        data=$folder/$count-$statements
        mkdir "$data"
        cd "$data"
        "$built" make "$count" "$statements"
        echo "$count objects of $statements statements, $(cat u*.o | wc -c) bytes"
        /usr/bin/time -f '  ours: all %e s, %M KiB' "$built" link "$count" 2>&1 | sed 's/^read/  ours: read/'
        if command -v ld > /dev/null; then
            seq -f u%g.o 0 "$((count - 1))" > files
            /usr/bin/time -f '  ld:   all %e s, %M KiB' ld -m elf_i386 -o ld.out @files runtime.o
        fi
        rm -rf "$data"
    done
done
