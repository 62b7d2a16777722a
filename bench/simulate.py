#!/usr/bin/env python3
"""Cycles per second of the processor of `sim`, beside Icarus Verilog and `order` on the same text and stimulus, and samples per second of `run`.

Usage: bench/simulate.py [PROGRAM]   (by default crates/filter_cli/out/filter_cli, which `./wadrelion` builds)

All are measured in one run, their starts included. Where Icarus isn't installed its ratio is left out.
"""
import shutil
import sys
import tempfile

from measuring import draws, drawn_taps, filter_plan, measured, program_of, read, write

# taps of a parallel filter, and the cycles that are simulated
FILTERS = ((32, 100_000), (256, 20_000))
SAMPLES = (10_000, 1_000_000)

BENCH = """module bench;
  reg clk, rst, ce;
  reg signed [15:0] in_data;
  wire out_valid;
  wire signed [{high}:0] out_data;
  integer file, cycle, tick, found, r, c, x;
  mr_filter dut (clk, rst, ce, in_data, out_valid, out_data);
  initial begin
    file = $fopen("stimulus", "r");
    clk = 0; cycle = 0; tick = 0;
    found = $fscanf(file, "%d %d %d\\n", r, c, x);
    while (found == 3) begin
      rst = r; ce = c; in_data = x;
      #1;
      if (!rst && ce && out_valid) $display("%0d %0d %0d", cycle, tick, out_data);
      if (rst) tick = 0; else if (ce) tick = tick + 1;
      clk = 1; #1 clk = 0;
      cycle = cycle + 1;
      found = $fscanf(file, "%d %d %d\\n", r, c, x);
    end
    $finish;
  end
endmodule
"""


def stimulus(cycles):
    source = draws(cycles)
    lines = ["1 0 0"]
    lines += [f"0 1 {next(source) % 65536 - 32768}" for _ in range(cycles - 1)]
    return "\n".join(lines) + "\n"


def output_bits(report):
    return next(int(line.split()[1]) for line in report.splitlines() if line.startswith("output "))


def simulate(program, taps, cycles):
    with tempfile.TemporaryDirectory() as folder:
        write(folder, "plan", filter_plan(drawn_taps(taps)))
        write(folder, "stimulus", stimulus(cycles))
        measured([program, "compile", "plan", "text.v", "report"], folder)
        took, memory = measured([program, "sim", "text.v", "stimulus", "out"], folder)
        print(f"sim taps {taps} cycles {cycles} seconds {took:.3f} cycles/s {cycles / took:.0f} MiB {memory:.1f}")
        ordered, _ = measured([program, "order", "text.v", "stimulus", "drawn", "1"], folder)
        print(f"order taps {taps} cycles/s {cycles / ordered:.0f} times sim {ordered / took:.1f}")
        if shutil.which("iverilog") is None:
            print("iverilog is not installed: no ratio")
            return
        write(folder, "bench.v", BENCH.format(high=output_bits(read(folder, "report")) - 1))
        built, _ = measured(["iverilog", "-g2001", "-o", "bench", "bench.v", "text.v"], folder)
        ran, _ = measured(["vvp", "-n", "bench"], folder, "foreign")
        # what `$finish` says is no line of three numbers
        foreign = [line for line in read(folder, "foreign").splitlines() if len(line.split()) == 3 and line[0].isdigit()]
        if foreign != read(folder, "out").splitlines():
            sys.exit("Icarus shows other values")
        print(f"icarus taps {taps} cycles/s {cycles / (built + ran):.0f} sim is {(built + ran) / took:.0f} times as fast")


def run(program, count):
    source = draws(count)
    with tempfile.TemporaryDirectory() as folder:
        write(folder, "plan", filter_plan([0, 4], width=4))
        write(folder, "samples", "".join(f"{next(source) % 16 - 8}\n" for _ in range(count)))
        took, memory = measured([program, "run", "plan", "samples", "out"], folder)
        print(f"run samples {count} seconds {took:.3f} samples/s {count / took:.0f} MiB {memory:.1f}")


def main():
    program = program_of(sys.argv)
    for taps, cycles in FILTERS:
        simulate(program, taps, cycles)
    for count in SAMPLES:
        run(program, count)


if __name__ == "__main__":
    main()
