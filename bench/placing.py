#!/usr/bin/env python3
"""How long a filter's loop takes an item by where it lies: the loop that plinq_lambda's `filter_block` is compiled to, over numbers of
which none passes, at sixteen places that are 4 bytes apart. It wants a C compiler and an x86-64 processor.

    python3 bench/placing.py [ITEMS [ROUNDS]]
"""
import os
import subprocess
import sys
import tempfile

PLACES = range(0, 64, 4)
TOTAL = 20_000_000
LOOP = """
    .globl keep{place}
    .p2align 6
    .fill {place}, 1, 0x90
keep{place}:
    mov %rdi, %r11
    mov %rdx, %rax
    mov %rsi, %rdx
    xor %edi, %edi
    xor %ecx, %ecx
1:  mov (%r11,%rcx,8), %rsi
    xor %r10d, %r10d
    cmp %rax, %rsi
    setl %r10b
    mov %rsi, (%r11,%rdi,8)
    add %rdi, %r10
    mov 8(%r11,%rcx,8), %rsi
    xor %edi, %edi
    cmp %rax, %rsi
    setl %dil
    mov %rsi, (%r11,%r10,8)
    add %r10, %rdi
    add $2, %rcx
    cmp %rcx, %rdx
    jne 1b
    mov %rdi, %rax
    ret
"""
TIMED = """
    best = 1e9;
    for (int round = 0; round < rounds; round++) {{
        double start = now();
        for (long turn = 0; turn < turns; turn++) kept += keep{place}(items, count, 0);
        double taken = now() - start;
        best = taken < best ? taken : best;
    }}
    printf("{place} %.2f\\n", best * 1e9 / (turns * count));
"""
PROGRAM = """
#include <stdio.h>
#include <stdlib.h>
#include <time.h>
{declared}
static double now(void) {{
    struct timespec time;
    clock_gettime(CLOCK_THREAD_CPUTIME_ID, &time);
    return time.tv_sec + time.tv_nsec * 1e-9;
}}
int main(int argc, char **words) {{
    long count = atol(words[1]), rounds = atol(words[2]), turns = {total} / count, kept = 0;
    long *items = malloc(count * sizeof(long));
    double best;
    for (long i = 0; i < count; i++) items[i] = 7;
    {timed}
    return kept != 0;
}}
"""


def main():
    items, rounds = (sys.argv[1:] + ["100", "7"][len(sys.argv) - 1:])[:2]
    with tempfile.TemporaryDirectory() as folder:
        with open(f"{folder}/loops.s", "w", encoding="utf-8") as file:
            file.write('    .section .note.GNU-stack, "", @progbits\n    .text\n' + "".join(LOOP.format(place=it) for it in PLACES))
        with open(f"{folder}/main.c", "w", encoding="utf-8") as file:
            declared = "".join(f"long keep{it}(long *, long, long);\n" for it in PLACES)
            file.write(PROGRAM.format(declared=declared, total=TOTAL, timed="".join(TIMED.format(place=it) for it in PLACES)))
        subprocess.run([os.environ.get("CC", "cc"), "-O2", "-o", f"{folder}/placing", f"{folder}/main.c", f"{folder}/loops.s"], check=True)
        lines = subprocess.run([f"{folder}/placing", items, rounds], check=True, capture_output=True, text=True).stdout.split()
    times = [float(it) for it in lines[1::2]]
    print(f"ns an item, {items} items at a time, at each place: {' '.join(lines[1::2])}")
    print(f"from {min(times):.2f} to {max(times):.2f}, x{max(times) / min(times):.1f}")


if __name__ == "__main__":
    main()
