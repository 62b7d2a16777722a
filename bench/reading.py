#!/usr/bin/env python3
"""MiB per second of the processor and peak memory of reading and checking a text: `sim` on a text of about 1 MiB and one of about 16 MiB, with one cycle.

Usage: bench/reading.py [PROGRAM]   (by default crates/filter_cli/out/filter_cli, which `./wadrelion` builds)

The growth is the seconds of the larger text beside those of the smaller, by their sizes: 1 where the time is linear.
"""
import sys
import tempfile

from measuring import measured, program_of, write

SIZES = (1, 16)

HEAD = """module t (input clk, rst, ce, input signed [3:0] in_data,
          output out_valid, output signed [4:0] out_data);
"""


def text_of(mib):
    """A register for each three wires, of which each takes the one before."""
    parts = [HEAD]
    size = 0
    count = 0
    while size < mib * 2**20:
        before = f"w{count - 1}" if count else "in_data"
        part = (f"  wire signed [4:0] w{count};\n  assign w{count} = r{count} + (({before} <<< 1) - 5'sh3);\n"
                f"  reg signed [4:0] r{count};\n  always @(posedge clk) if (rst) r{count} <= 5'sh0; else if (ce) r{count} <= w{count};\n")
        parts.append(part)
        size += len(part)
        count += 1
    parts.append(f"  assign out_valid = 1'h1;\n  assign out_data = w{count - 1};\nendmodule\n")
    return "".join(parts)


def main():
    program = program_of(sys.argv)
    before = None
    for mib in SIZES:
        text = text_of(mib)
        size = len(text) / 2**20
        with tempfile.TemporaryDirectory() as folder:
            write(folder, "text.v", text)
            write(folder, "stimulus", "1 0 0\n")
            took, memory = measured([program, "sim", "text.v", "stimulus", "out"], folder)
        line = f"text MiB {size:.1f} seconds {took:.3f} MiB/s {size / took:.2f} memory MiB {memory:.0f}"
        if before is not None:
            line += f" growth {took / before[1] / (size / before[0]):.2f}"
        print(line)
        before = (size, took)


if __name__ == "__main__":
    main()
