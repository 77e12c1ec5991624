#!/usr/bin/env python3
"""Prints what the processor makes of operators and of short programs: the rows of crates/i386_arith/src/cases.rt with
the word `operators`, and those of crates/i386_machine/src/cases.rt with the word `programs`.

Run it as `python3 scripts/processor.py WORD` where GNU as, ld and objcopy are installed, on a processor and a kernel
that run 32-bit programs.
"""

import os
import signal
import struct
import subprocess
import sys
import tempfile

PAIRS = [(0, 0), (0, 1), (0x7fffffff, 1), (0x7fffffff, 0xffffffff), (0x80000000, 1), (0x80000000, 0x80000000), (0xffffffff, 1), (0xffffffff, 0xffffffff), (0x12345678, 0x87654321), (1, 0x80000000)]
OPERATORS = [("Add", "add"), ("Sub", "sub"), ("And", "and"), ("Or", "or"), ("Xor", "xor"), ("Cmp", "cmp"), ("Test", "test")]
SHIFTS = [("Shl", "shl"), ("Shr", "shr"), ("Sar", "sar")]
SHIFTED = [(0x80000001, 0), (0x80000001, 1), (0x80000001, 31), (0x80000001, 32), (0x80000001, 33), (0x7fffffff, 4), (0xfffffff1, 0xff), (0x12345678, 12)]
DIVIDED = [
    (0, 0, 0), (0, 7, 2), (0, 0xffffffff, 1), (1, 0, 1), (1, 0, 2), (0xfffffffe, 0xffffffff, 0xffffffff),
    (0xffffffff, 0xfffffff9, 2), (0, 7, 0xfffffffe), (0xffffffff, 0xfffffff9, 0xfffffffe), (0xffffffff, 0x80000000, 0xffffffff),
    (0, 0x80000000, 0xffffffff), (0, 0x7fffffff, 0xffffffff), (0xffffffff, 0x80000000, 1), (0, 0x80000000, 1),
    (0x80000000, 0, 0xffffffff), (0xc0000000, 0, 0x80000000), (0x40000000, 0, 0x80000000), (0x40000000, 0, 0x7fffffff),
    (0xffffffff, 0xffffffff, 0x80000000), (5, 0, 0),
]
CONDITIONS = "b ae e ne be a l ge le g".split()
SET_ALL = "; ".join("set%s %d(%%esp)" % (cond, place) for place, cond in enumerate(CONDITIONS)) + "; mov (%esp),%eax; mov 4(%esp),%ecx; mov 8(%esp),%edx"
# carry, zero, and sign against overflow, of what came before
SET_FLAGS = "setb %cl; sete %dl; setl %bl"
PROGRAMS = [
    "mov $0x12345678,%eax; mov %eax,8(%esp); mov 8(%esp),%ebx; mov %ebx,%ecx",
    "mov $0x12345684,%eax; mov %al,4(%esp); movzbl 4(%esp),%ecx; movsbl 4(%esp),%edx; mov $-1,%ebx; mov %al,%bl",
    "movl $0x89abcdef,4(%esp); mov 4(%esp),%eax; movzbl 5(%esp),%ecx; movsbl 7(%esp),%edx; mov 2(%esp),%ebx",
    "mov $0x1234567f,%ebx; movsbl %bl,%eax; mov $0x123456fe,%edx; movsbl %dl,%ecx; movzbl %dl,%edx",
    "movl $0x11223344,%ecx; mov $0x55667788,%edx; mov %cl,%dl; mov %edx,%eax",
    "mov $3,%ecx; lea -8(%ecx,%ecx,8),%eax; lea 0x10(,%ecx,4),%edx; mov $0x80000000,%ebx; lea 0x7fffffff(%ebx,%ebx,2),%ebx",
    "mov %esp,%esi; mov $-2,%edi; movl $77,-8(%esp); mov (%esi,%edi,4),%eax; mov %esp,%ebp; mov -8(%ebp),%ecx",
    "mov $0x7fffffff,%eax; mov $1,%ebx; add %ebx,%eax; " + SET_FLAGS,
    "mov $0xffffffff,%eax; mov $1,%ebx; add %ebx,%eax; " + SET_FLAGS,
    "mov $0x80000000,%eax; mov $1,%ebx; sub %ebx,%eax; " + SET_FLAGS,
    "mov $1,%eax; mov $2,%ebx; sub %ebx,%eax; " + SET_FLAGS,
    "movl $5,(%esp); mov $7,%eax; sub %eax,(%esp); mov (%esp),%eax; " + SET_FLAGS,
    "movl $0xff00ff00,(%esp); mov $0x0ff00ff0,%eax; and %eax,(%esp); mov (%esp),%ebx; or %eax,(%esp); mov (%esp),%ecx; xor %eax,(%esp); mov (%esp),%edx",
    "mov $1,%ecx; cmp %ecx,%eax; mov $0xf0,%eax; mov $0x0f,%ebx; test %ebx,%eax; " + SET_FLAGS,
    "mov $5,%eax; mov $6,%ebx; cmp %ebx,%eax; " + SET_FLAGS,
    "movl $9,(%esp); mov $9,%eax; cmp %eax,(%esp); " + SET_FLAGS,
    "mov $1,%esi; add $0x7fffffff,%esi; mov %esi,%eax; " + SET_FLAGS,
    "mov $0x12345678,%esi; and $0xff00ff00,%esi; mov %esi,%eax; " + SET_FLAGS,
    "mov $0x1000,%esi; sub $0x1001,%esi; mov %esi,%eax; " + SET_FLAGS,
    "movl $0x12345678,(%esp); cmpl $0x12345678,(%esp); mov (%esp),%eax; " + SET_FLAGS,
    "mov $1,%eax; add $-1,%eax; " + SET_FLAGS,
    "mov $0x12345678,%eax; and $-16,%eax; " + SET_FLAGS,
    "mov $0x7fffffff,%eax; sub $-128,%eax; " + SET_FLAGS,
    "cmp $-1,%eax; " + SET_FLAGS,
    "mov $0x12345678,%eax; mov $0x9abcdef1,%ecx; imul %ecx,%eax; mov $-3,%edx; movl $7,(%esp); imul (%esp),%edx",
    "mov $0x12345678,%eax; not %eax; movl $1,(%esp); notl (%esp); mov (%esp),%ecx",
    "mov $1,%eax; mov $1,%ecx; cmp %ecx,%eax; not %eax; " + SET_FLAGS,
    "mov $0x80000000,%eax; neg %eax; mov $5,%ecx; neg %ecx; neg %edx; movl $-1,(%esp); negl (%esp); mov (%esp),%ebx",
    "mov $7,%eax; mov $2,%ecx; div %ecx",
    "mov $0xffffffff,%eax; mov $1,%edx; movl $2,(%esp); divl (%esp)",
    "mov $-7,%eax; cltd; mov $2,%ecx; idiv %ecx",
    "mov $7,%eax; cltd; movl $-2,(%esp); idivl (%esp)",
    "mov $0x80000000,%eax; cltd; mov $1,%ecx; idiv %ecx",
    "mov $0x7fffffff,%eax; mov $-1,%edx; cltd; mov $-1,%ecx; idiv %ecx",
    "mov $0x80000001,%eax; mov %eax,%edx; mov %eax,%ebx; mov $4,%ecx; shl %cl,%eax; shr %cl,%edx; sar %cl,%ebx",
    "mov $0x80000001,%eax; mov %eax,%edx; mov %eax,%ebx; mov $0x123f,%ecx; shl %cl,%eax; shr %cl,%edx; sar %cl,%ebx",
    "movl $-9,(%esp); mov $32,%ecx; sarl %cl,(%esp); mov (%esp),%eax; mov $1,%ecx; sarl %cl,(%esp); mov (%esp),%edx; shrl %cl,(%esp); mov (%esp),%ebx; shl %cl,%ecx",
    "mov $1,%eax; mov $2,%ebx; push %eax; push %ebx; pop %ecx; pop %edx",
    "push %esp; pop %eax; sub %esp,%eax; mov %esp,%ebx; push %ebx; mov $9,%ecx; pop %esp; sub %esp,%ebx",
    "push %eax; mov %esp,%eax; sub $4,%esp; mov %eax,(%esp); pop %esp; sub %esp,%eax",
    "call 1f; mov $1,%ebx; jmp 2f; 1: mov $5,%eax; ret; 2: mov $6,%ecx",
    "{disp32} jmp 1f; mov $1,%eax; 1: mov $2,%ebx",
    "mov $3,%ecx; 1: add $5,%eax; sub $1,%ecx; jne 1b",
    "mov $3,%ecx; 1: add $5,%eax; sub $1,%ecx; {disp32} jg 1b; mov $8,%edx",
    "mov $1,%ecx; cmp %ecx,%eax; jl 1f; mov $7,%ebx; 1: {disp32} jge 2f; mov $9,%edx; 2:",
] + ["mov $0x%x,%%eax; mov $0x%x,%%ebx; cmp %%ebx,%%eax; %s" % (a, b, SET_ALL) for a, b in [(1, 2), (2, 1), (3, 3), (0x80000000, 1), (1, 0x80000000), (0xffffffff, 0), (0, 0x80000000)]]


def tool(*words):
    subprocess.run(words, check=True)


def assemble(folder, text):
    source = os.path.join(folder, "a.s")
    with open(source, "w") as file:
        file.write(text + "\n")
    tool("as", "--32", "-o", os.path.join(folder, "a.o"), source)


def spelled(folder, text):
    """The bytes of a program."""
    assemble(folder, text)
    code = os.path.join(folder, "a.bin")
    tool("objcopy", "-O", "binary", "-j", ".text", os.path.join(folder, "a.o"), code)
    with open(code, "rb") as file:
        return file.read()


def ran(folder, text):
    """The registers eax, ecx, edx and ebx after a program that began with zeros, and the flags; None where the processor
    refuses to divide."""
    zeros = "; ".join("mov $0,%%%s" % reg for reg in "eax ecx edx ebx esi edi ebp".split())
    assemble(folder, ".globl _start\n_start: mov $top,%%esp; %s\n%s\n pushf; pop flags; mov %%eax,out; mov %%ecx,out+4; mov %%edx,out+8; mov %%ebx,out+12\n"
             " mov $4,%%eax; mov $1,%%ebx; mov $out,%%ecx; mov $20,%%edx; int $0x80; mov $1,%%eax; mov $0,%%ebx; int $0x80\n"
             ".bss\n.fill 256\ntop: .fill 64\nout: .fill 16\nflags: .fill 4" % (zeros, text))
    program = os.path.join(folder, "a.out")
    tool("ld", "-m", "elf_i386", "-o", program, os.path.join(folder, "a.o"))
    done = subprocess.run([program], stdout=subprocess.PIPE)
    if done.returncode == -signal.SIGFPE:
        return None
    assert done.returncode == 0 and len(done.stdout) == 20, text
    return struct.unpack("<5I", done.stdout)


def number(word):
    if word < 1000:
        return str(word)
    digits = "%08x" % word
    return "0x%s_%s" % (digits[:4], digits[4:])


def flag(flags, bit):
    return str(flags >> bit & 1)


def operators(folder):
    print("    // the operation, its operands, the result, and ZF, SF, CF and OF")
    for name, mnemonic in OPERATORS:
        for a, b in PAIRS:
            line = "mov $%d,%%eax; mov $%d,%%ebx; %s %%ebx,%%eax"
            flags = ran(folder, line % (a, b, mnemonic))[4]
            # of cmp and test the processor keeps no result: that of sub and and, which set the same flags
            word = ran(folder, line % (a, b, {"Cmp": "sub", "Test": "and"}.get(name, mnemonic)))[0]
            print("    (AluOp::%s, %s, %s, %s, [%s])," % (name, number(a), number(b), number(word), ", ".join(flag(flags, bit) for bit in (6, 7, 0, 11))))
    print("    // the shift, the word, cl, and the result")
    for name, mnemonic in SHIFTS:
        for word, count in SHIFTED:
            eax = ran(folder, "mov $%d,%%eax; mov $%d,%%ecx; %s %%cl,%%eax" % (word, count, mnemonic))[0]
            print("    (ShiftOp::%s, %s, %s, %s)," % (name, number(word), number(count), number(eax)))
    print("    // edx, eax, the divisor, and quotient and remainder, without signs and with them")
    for high, low, divisor in DIVIDED:
        line = []
        for mnemonic in ("div", "idiv"):
            done = ran(folder, "mov $%d,%%edx; mov $%d,%%eax; mov $%d,%%ecx; %s %%ecx" % (high, low, divisor, mnemonic))
            line.append("None" if done is None else "Some((%s, %s))" % (number(done[0]), number(done[2])))
        print("    (%s, %s, %s, %s)," % (number(high), number(low), number(divisor), ", ".join(line)))


def programs(folder):
    for text in PROGRAMS:
        code = spelled(folder, text)
        print('    // %s' % text)
        print('    (b"%s", [%s]),' % ("".join("\\x%02x" % byte for byte in code), ", ".join(number(word) for word in ran(folder, text)[:4])))


def main():
    with tempfile.TemporaryDirectory() as folder:
        {"operators": operators, "programs": programs}[sys.argv[1]](folder)


main()
