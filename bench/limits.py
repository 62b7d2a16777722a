#!/usr/bin/env python3
"""Seconds of the processor and peak memory of `compile` for a chain that comes close to all limits on the ranges of its registers:
a value depends on 1,048,573 samples (2^20 are accepted), and the terms of the filter times what stands before it make 2^27.9 (2^28 are accepted).

Usage: bench/limits.py [PROGRAM]   (by default crates/filter_cli/out/filter_cli, which `./wadrelion` builds)

The same decimator before a filter of one tap, and the same filter alone, tell what the response of the decimator and the net of the filter take.
"""
import sys
import tempfile

from measuring import measured, program_of, read, write

STAGES, FACTOR, DELAY = 4, 2048, 2
TAPS = 505
# a tap of 62 bits with 31 digits in its non-adjacent form
TAP = (4**31 - 1) // 3

CASCADE = f'[[element]]\nkind = "cic_down"\nfactor = {FACTOR}\nstages = {STAGES}\ndelay = {DELAY}\n'


def plan(cascade, taps):
    return f'version = 1\nwidth = 4\n{cascade}[[element]]\nkind = "filter"\ntaps = {taps}\n'


CASES = (
    ("at the limits", plan(CASCADE, [TAP] * TAPS)),
    ("the decimator alone", plan(CASCADE, [1])),
    ("the filter alone", plan("", [TAP] * TAPS)),
)


def main():
    program = program_of(sys.argv)
    for name, text in CASES:
        with tempfile.TemporaryDirectory() as folder:
            write(folder, "plan.toml", text)
            took, memory = measured([program, "compile", "plan.toml", "out.v", "out.txt"], folder)
            registers = sum(line.startswith("register ") for line in read(folder, "out.txt").splitlines())
            print(f"{name}: seconds {took:.2f} MiB {memory:.0f} registers {registers}")


if __name__ == "__main__":
    main()
