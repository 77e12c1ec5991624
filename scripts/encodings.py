#!/usr/bin/env python3
"""Prints the rows of crates/i386_code/src/encodings.rt: what `as --32` makes of each line below.

Run it as `python3 scripts/encodings.py` where GNU as and objcopy are installed.
"""

import os
import subprocess
import tempfile

CASES = [
    ("mov %al,0x8(%esp)", "StoreByte { to: at!(Esp, 8), from: Reg::Eax }"),
    ("mov %bl,%cl", "StoreByte { to: reg!(Ecx), from: Reg::Ebx }"),
    ("mov %eax,0x8(%esp)", "Store { to: at!(Esp, 8), from: Reg::Eax }"),
    ("mov %ebx,(%ebp)", "Store { to: at!(Ebp, 0), from: Reg::Ebx }"),
    ("mov %ecx,0x12345678", "Store { to: at!(0x1234_5678), from: Reg::Ecx }"),
    ("mov %edi,%esi", "Store { to: reg!(Esi), from: Reg::Edi }"),
    ("mov %edx,-0x80(%ebx)", "Store { to: at!(Ebx, 0xffff_ff80), from: Reg::Edx }"),
    ("mov %edx,0x80(%ebx)", "Store { to: at!(Ebx, 0x80), from: Reg::Edx }"),
    ("mov (%eax),%ecx", "Load { to: Reg::Ecx, from: at!(Eax, 0) }"),
    ("mov 0x10(%eax,%ecx,4),%edx", "Load { to: Reg::Edx, from: at!(Eax, Ecx, 2, 0x10) }"),
    ("mov 0x0(,%esi,8),%edi", "Load { to: Reg::Edi, from: scaled!(Esi, 3, 0) }"),
    ("mov (%esp),%eax", "Load { to: Reg::Eax, from: at!(Esp, 0) }"),
    ("mov (%ebp,%eax,1),%eax", "Load { to: Reg::Eax, from: at!(Ebp, Eax, 0, 0) }"),
    ("mov -0x100(%esp,%ebp,2),%ebx", "Load { to: Reg::Ebx, from: at!(Esp, Ebp, 1, 0xffff_ff00) }"),
    ("mov $0x12345678,%edi", "LoadImm { to: Reg::Edi, value: 0x1234_5678 }"),
    ("movl $0x7,0x4(%ebp)", "StoreImm { to: at!(Ebp, 4), value: 7 }"),
    ("movzbl %bl,%esi", "ZeroByte { to: Reg::Esi, from: reg!(Ebx) }"),
    ("movsbl 0x3(%ecx),%edi", "SignByte { to: Reg::Edi, from: at!(Ecx, 3) }"),
    ("lea -0x8(%ebp,%edx,4),%eax", "Lea { to: Reg::Eax, from: place!(Ebp, Edx, 2, 0xffff_fff8) }"),
    ("add %eax,%ebx", "Alu { op: AluOp::Add, to: reg!(Ebx), from: Reg::Eax }"),
    ("sub %ecx,(%esi)", "Alu { op: AluOp::Sub, to: at!(Esi, 0), from: Reg::Ecx }"),
    ("and %edx,%eax", "Alu { op: AluOp::And, to: reg!(Eax), from: Reg::Edx }"),
    ("or %edx,0x4(%edi)", "Alu { op: AluOp::Or, to: at!(Edi, 4), from: Reg::Edx }"),
    ("xor %edi,%edi", "Alu { op: AluOp::Xor, to: reg!(Edi), from: Reg::Edi }"),
    ("cmp %edx,0x100(%esp)", "Alu { op: AluOp::Cmp, to: at!(Esp, 0x100), from: Reg::Edx }"),
    ("test %eax,%eax", "Alu { op: AluOp::Test, to: reg!(Eax), from: Reg::Eax }"),
    ("add $0x1000,%ebx", "AluImm { op: AluOp::Add, to: reg!(Ebx), value: 0x1000 }"),
    ("and $0xffff00,%ecx", "AluImm { op: AluOp::And, to: reg!(Ecx), value: 0x00ff_ff00 }"),
    ("subl $0x80,(%edx)", "AluImm { op: AluOp::Sub, to: at!(Edx, 0), value: 0x80 }"),
    ("cmp $0x7fffffff,%esi", "AluImm { op: AluOp::Cmp, to: reg!(Esi), value: 0x7fff_ffff }"),
    ("add $0x5,%esp", "AluShort { op: AluOp::Add, to: reg!(Esp), value: 5 }"),
    ("sub $0x10,%esp", "AluShort { op: AluOp::Sub, to: reg!(Esp), value: 16 }"),
    ("and $-0x10,%esp", "AluShort { op: AluOp::And, to: reg!(Esp), value: -16 }"),
    ("cmpl $-0x1,(%eax)", "AluShort { op: AluOp::Cmp, to: at!(Eax, 0), value: -1 }"),
    ("imul 0x4(%ebx),%edx", "Mul { to: Reg::Edx, from: at!(Ebx, 4) }"),
    ("not %eax", "Not { to: reg!(Eax) }"),
    ("negl 0x8(%ebp)", "Neg { to: at!(Ebp, 8) }"),
    ("div %ecx", "Div { to: reg!(Ecx) }"),
    ("idivl (%esp)", "SignDiv { to: at!(Esp, 0) }"),
    ("cltd", "Cdq"),
    ("shl %cl,%eax", "Shift { op: ShiftOp::Shl, to: reg!(Eax) }"),
    ("shrl %cl,(%ebx)", "Shift { op: ShiftOp::Shr, to: at!(Ebx, 0) }"),
    ("sar %cl,%edx", "Shift { op: ShiftOp::Sar, to: reg!(Edx) }"),
    ("push %ebp", "Push { from: Reg::Ebp }"),
    ("pop %edi", "Pop { to: Reg::Edi }"),
    ("call .+0x105", "Call { by: 0x100 }"),
    ("jmp .+0x1005", "Jump { by: 0x1000 }"),
    ("jl .+0x1006", "JumpIf { cond: Cond::L, by: 0x1000 }"),
    ("jmp .-0x7e", "JumpShort { by: -128 }"),
    ("jne .+0x12", "JumpIfShort { cond: Cond::Ne, by: 16 }"),
    ("sete %al", "SetIf { cond: Cond::E, to: reg!(Eax) }"),
    ("setbe 0x1(%esp)", "SetIf { cond: Cond::Be, to: at!(Esp, 1) }"),
    ("ret", "Ret"),
    ("int $0x80", "Interrupt { number: 0x80 }"),
]


def assembled(line):
    """The bytes that `as --32` gives for one line."""
    with tempfile.TemporaryDirectory() as folder:
        obj, raw = os.path.join(folder, "a.o"), os.path.join(folder, "a.bin")
        subprocess.run(["as", "--32", "-o", obj], input=line + "\n", text=True, check=True)
        subprocess.run(["objcopy", "-O", "binary", "-j", ".text", obj, raw], check=True)
        with open(raw, "rb") as file:
            return file.read()


def main():
    print(f"pub static ENCODINGS: [(&str, &[u8], Instr); {len(CASES)}] = [")
    for line, instr in CASES:
        code = ", ".join(f"0x{byte:02x}" for byte in assembled(line))
        print(f'    ("{line}", &[{code}], Instr::{instr}),')
    print("];")


if __name__ == "__main__":
    main()
