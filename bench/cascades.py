#!/usr/bin/env python3
"""Seconds of the processor and peak memory of `compile` for a decimator and an interpolator alone, by 2, 64 and 4,096: 8 stages, each comb over 2 values.

Usage: bench/cascades.py [PROGRAM]   (by default crates/filter_cli/out/filter_cli, which `./wadrelion` builds)

The response of the last two has 65,529 weights.
"""
import sys
import tempfile

from measuring import measured, program_of, write

STAGES, DELAY, WIDTH = 8, 2, 16
FACTORS = (2, 64, 4096)
RUNS = 3


def plan(kind, factor):
    ticks = factor if kind == "cic_up" else 1
    return f'version = 1\nwidth = {WIDTH}\nticks = {ticks}\n[[element]]\nkind = "{kind}"\nfactor = {factor}\nstages = {STAGES}\ndelay = {DELAY}\n'


def least(program, kind, factor):
    """The least seconds and the least peak memory of some runs."""
    with tempfile.TemporaryDirectory() as folder:
        write(folder, "plan.toml", plan(kind, factor))
        runs = [measured([program, "compile", "plan.toml", "out.v", "out.txt"], folder) for _ in range(RUNS)]
    return min(run[0] for run in runs), min(run[1] for run in runs)


def main():
    program = program_of(sys.argv)
    for kind in ("cic_down", "cic_up"):
        for factor in FACTORS:
            took, memory = least(program, kind, factor)
            print(f"{kind} factor {factor}: seconds {took:.3f} MiB {memory:.0f}")


if __name__ == "__main__":
    main()
