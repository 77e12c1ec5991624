#!/bin/sh
# Times the machine on a tight loop, on loads and stores, on calls, and on a byte loop over input, beside libx86emu on the
# first three where it is installed. rt, GNU as and objcopy have to be on the path, and for libx86emu cc and its header.
set -eu

top=$(cd "$(dirname "$0")/.." && pwd)
folder=$(mktemp -d)
trap 'rm -rf "$folder"' EXIT
program=$folder/crates/machine_bench

mkdir -p "$program/src" "$program/data"
(cd "$top" && tar cf - --exclude=out crates/cc_base crates/i386_code crates/i386_arith crates/i386_machine) | (cd "$folder" && tar xf -)
grep -E '^(cc_base|i386_code|i386_arith|i386_machine):' "$top/crates.txt" > "$folder/crates.txt"
echo 'machine_bench: cc_base i386_machine anyhow' >> "$folder/crates.txt"

spell() {
    printf '%s\n' "$2" > "$folder/a.s"
    as --32 -o "$folder/a.o" "$folder/a.s"
    objcopy -O binary -j .text "$folder/a.o" "$program/data/$1.bin"
}
spell loop 'mov $-1,%ecx; 1: add %ecx,%eax; xor %eax,%edx; lea 3(%edx,%ecx,2),%ebx; sub $1,%ecx; jne 1b'
spell memory 'mov $-1,%ecx; 1: mov 4(%esp),%eax; mov %eax,8(%esp); mov %ecx,4(%esp); add %eax,(%esp); sub $1,%ecx; jne 1b'
spell calls 'mov $-1,%ecx; 1: push %ecx; call 2f; pop %ecx; sub $1,%ecx; jne 1b; 2: mov 4(%esp),%eax; ret'
spell bytes '1: mov $3,%eax; mov $0,%ebx; mov %esp,%ecx; mov $1,%edx; int $0x80; test %eax,%eax; je 2f; mov $4,%eax; mov $1,%ebx; int $0x80; jmp 1b; 2: mov $1,%eax; mov $0,%ebx; int $0x80'

cat > "$program/src/main.rt" <<'END'
// Runs each program for twenty million instructions, the last over two million bytes of input, and prints how many
// that is a second.
#![tactic(auto)]

ghost use Rattle.std.specs.Prelude.{◌<◌, ◌≤◌, length};

use anyhow::Result;
use cc_base::{Bytes, Calls, MemSink, MemSource};
use i386_machine::{Machine, run};
use std::alloc::{AllocError, Global};
use std::fs;
use std::time::Instant;

fn machine_of(alloc: Global, code: &[u8]) -> Result<Machine, AllocError>
    requires some { 0 < length code.now }
    requires short { length code.now ≤ 4096 }
{
    let mut machine = Machine::new(alloc, 0x0804_9000, 1_048_576)?;
    machine.add_region(0x0804_9000, code, code.len() as u32, false, true)?;
    Ok(machine)
}

fn main(rt: HostRuntime) -> Result<()> {
    let alloc = rt.alloc();
    let mut held = Bytes::new(alloc);
    for k in 0..2_000_000u32 {
        held.push((k % 251) as u8)?;
    }
    for name in ["loop", "memory", "calls", "bytes"] {
        let path = format!(in alloc; "data/{name}.bin")?;
        let code = fs::read(&rt, path.as_str())?;
        if code.is_empty() || code.len() > 4096 {
            continue;
        }
        for _ in 0..3 {
            let mut machine = machine_of(alloc, code.as_slice())?;
            let input = Bytes::from_slice(alloc, held.as_slice())?;
            let mut source = MemSource::new(input, Calls::new(alloc));
            let mut sink = MemSink::new(alloc, Calls::new(alloc));
            let start = Instant::now(&rt)?;
            let end = run(&mut machine, 20_000_000, &mut source, &mut sink);
            let time = start.elapsed(&rt)?;
            let micros = time.as_secs().saturating_mul(1_000_000).saturating_add(u64::from(time.subsec_micros())).max(1);
            let each_second = 20_000_000u64.saturating_mul(1_000_000) / micros;
            println!(rt; "{name}: {end:?}, {each_second} instructions a second")?;
        }
    }
    Ok(())
}
END

cat > "$folder/emu.c" <<'END'
#include <stdio.h>
#include <stdlib.h>
#include <time.h>
#include <x86emu.h>

int main(int argc, char **argv) {
    for (int i = 1; i < argc; i++) {
        FILE *file = fopen(argv[i], "rb");
        unsigned char code[4096];
        size_t size = fread(code, 1, sizeof code, file);
        fclose(file);
        x86emu_t *emu = x86emu_new(X86EMU_PERM_RWX, X86EMU_PERM_RW);
        for (size_t k = 0; k < size; k++) x86emu_write_byte_noperm(emu, 0x8000 + k, code[k]);
        x86emu_set_seg_register(emu, emu->x86.R_CS_SEL, 0);
        x86emu_set_seg_register(emu, emu->x86.R_SS_SEL, 0);
        x86emu_set_seg_register(emu, emu->x86.R_DS_SEL, 0);
        emu->x86.R_CS_ACC |= 1 << 10;
        emu->x86.R_SS_ACC |= 1 << 10;
        emu->x86.R_CS_LIMIT = emu->x86.R_SS_LIMIT = emu->x86.R_DS_LIMIT = 0xffffffff;
        emu->x86.R_EIP = 0x8000;
        emu->x86.R_ESP = 0x20000;
        emu->max_instr = 20000000;
        struct timespec a, b;
        clock_gettime(CLOCK_MONOTONIC, &a);
        x86emu_run(emu, X86EMU_RUN_MAX_INSTR);
        clock_gettime(CLOCK_MONOTONIC, &b);
        double seconds = (b.tv_sec - a.tv_sec) + (b.tv_nsec - a.tv_nsec) / 1e9;
        printf("libx86emu: %s, %.0f instructions a second\n", argv[i], emu->x86.R_TSC / seconds);
        x86emu_done(emu);
    }
}
END

(cd "$program" && rt run 2> "$folder/log") || { cat "$folder/log" >&2; exit 1; }
if cc -O2 -o "$folder/emu" "$folder/emu.c" -lx86emu 2> /dev/null; then
    (cd "$program/data" && "$folder/emu" loop.bin memory.bin calls.bin)
else
    echo "libx86emu is not installed"
fi
