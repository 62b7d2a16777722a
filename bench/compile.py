#!/usr/bin/env python3
"""Seconds of the processor of `compile` for parallel filters of 64, 256 and 1,024 taps of 16 bits, and how they grow beside terms * log(terms).

Usage: bench/compile.py [PROGRAM]   (by default crates/filter_cli/out/filter_cli, which `./wadrelion` builds)

A growth above 1 says that the time grew faster than the terms times their logarithm from one size to the next.
"""
import math
import sys
import tempfile

from measuring import drawn_taps, filter_plan, measured, program_of, write

SIZES = (64, 256, 1024)
RUNS = 3


def weight(tap):
    """The digits of the non-adjacent form."""
    digits = 0
    while tap:
        if tap % 2:
            digits += 1
            tap -= 2 - tap % 4
        tap //= 2
    return digits


def least(program, folder):
    """The least seconds and the least peak memory of some runs."""
    runs = [measured([program, "compile", "plan.toml", "out.v", "out.txt"], folder) for _ in range(RUNS)]
    return min(run[0] for run in runs), min(run[1] for run in runs)


def main():
    program = program_of(sys.argv)
    before = None
    for count in SIZES:
        values = drawn_taps(count)
        terms = sum(weight(tap) for tap in values)
        with tempfile.TemporaryDirectory() as folder:
            write(folder, "plan.toml", filter_plan(values))
            took, memory = least(program, folder)
        line = f"taps {count} terms {terms} seconds {took:.3f} MiB {memory:.0f}"
        if before is not None:
            wanted = terms * math.log(terms) / (before[0] * math.log(before[0]))
            line += f" growth {took / before[1] / wanted:.2f}"
        print(line)
        before = (terms, took)


if __name__ == "__main__":
    main()
