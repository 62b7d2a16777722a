#!/usr/bin/env python3
"""Writes docs/FAULTS.md: what each fault means, what to do about it, and an example with the line that the program prints.

Usage: scripts/faults.py [PROGRAM]            writes the page (by default crates/filter_cli/out/filter_cli, which `./wadrelion` builds)
       scripts/faults.py --check [PROGRAM]    ends with 1 where the page isn't what the program gives

Each example is run in a folder of its own; one whose exit status isn't the one that stands beside it ends the script.
"""

import pathlib
import subprocess
import sys
import tempfile

TOP = pathlib.Path(__file__).resolve().parent.parent
HEAD = """# Faults

Made by `scripts/faults.py` from runs of the program. A fault is one line on standard error, and its number is the exit status; 0 is none. For each: what it
means, what to do, and an example, the words after the program's name and the file that is wrong, with the line that comes. Elements, lines and rows are
counted from 1, element 0 is the plan itself; places in a text are bytes from 0. What the files hold after a fault stands in FORMATS.md.
"""

FILTER = '[[element]]\nkind = "filter"\ntaps = [1, 1]\n'
PLAN = 'version = 1\nwidth = 4\n' + FILTER
COMPILE = "compile plan.toml out.v out.txt"
RUN = "run plan.toml samples out"
SIM = "sim text.v stimulus out"
HEADER = (
    "module m (input clk, input rst, input ce, input signed [3:0] in_data, output out_valid, output signed [3:0] out_data);\n"
)
WIRED = HEADER + "assign out_valid = ce; assign out_data = in_data;\n"


def text(body):
    """A text whose outputs are driven, and what stands behind them."""
    return {"text.v": WIRED + body + "\nendmodule\n", "stimulus": "1 0 0\n"}


def plan(body, head="version = 1\nwidth = 4\n"):
    """A plan with these elements."""
    return {"plan.toml": head + body}


def rows(name, body):
    """A plan or text that is right, and a file of rows that isn't."""
    return {"plan.toml": PLAN, name: body} if name == "samples" else {"text.v": WIRED + "endmodule\n", name: body}


# the status, what it means, what to do, the words, the files, and the file that is shown
FAULTS = (
    (2, "The words after the program's name are no command.", "Look at the table of words in FORMATS.md. No two file words may be equal, and none empty.", "compile plan.toml plan.toml out.txt", {}, None),
    (3, "A call of the file system failed: `OpenInput` and `Next` of a file that is read, `OpenOutput` and `Put` of one that is written.", "Look whether each input is there and each output's folder can be written. A tap file's name is taken as it stands, from the folder that the program is called in.", COMPILE, {}, None),
    (4, "Memory ran out.", "Give the program more, or take a smaller plan. A compile near all limits takes some 80 MiB.", None, {}, None),
    (10, "A plan or a tap file has more than 1 MiB, or a text more than 64 MiB.", "Shorten it. Taps may stand in a file of their own for each filter.", COMPILE, {"plan.toml": PLAN + "#" * (1 << 20)}, None),
    (11, "The plan file is no TOML document.", "Look for a bracket or quote that isn't closed, a key that stands twice, or a number beyond 64 bits.", COMPILE, plan(FILTER.replace("]\n", "\n", 1)[:-2] + "\n"), "plan.toml"),
    (12, "A field of the plan file is wrong. `why` is `Missing`, `WrongType`, `BadWord` (not one of the words that may stand there), `Unknown` (no key of this kind and form) or `Both` (`taps` beside `taps_file`).", "Compare the element with the table of keys in PLANS.md.", COMPILE, plan('[[element]]\nkind = "filter"\ntap = [1, 1]\n'), "plan.toml"),
    (13, "The plan file has another version.", "Write `version = 1` or `version = 2`.", COMPILE, plan(FILTER, "version = 3\nwidth = 4\n"), "plan.toml"),
    (14, "A field of an element's tap file is no whole number (`NotNumber`), or needs more than 64 bits (`TooLarge`). Rows are counted without blank lines.", "Taps are whole numbers: scale them first, and round.", COMPILE, {**plan('[[element]]\nkind = "filter"\ntaps_file = "taps.csv"\n'), "taps.csv": "1, 2\n3, 0.5\n"}, "taps.csv"),
    (20, "A number of the plan lies outside its limits.", "The limits stand in PLANS.md, key by key. `which` names the number, and `value` is what was found.", COMPILE, plan('[[element]]\nkind = "down"\nfactor = 0\n'), "plan.toml"),
    (21, "The ticks of a sample can't be divided by an Up's factor: the element would need a fraction of a tick.", "Give `ticks` a factor that the Up can use: a sample of 2 ticks can become two of 1.", COMPILE, plan('[[element]]\nkind = "up"\nfactor = 2\n' + FILTER), "plan.toml"),
    (22, "The greatest magnitude that a value can have at this element is above 2^125, so that it would need more than 127 bits.", "Round before it, or take smaller taps.", COMPILE, plan(('[[element]]\nkind = "cic_down"\nfactor = 4096\nstages = 8\ndelay = 2\n') * 2, "version = 1\nwidth = 64\n"), "plan.toml"),
    (23, "The bound of the rounding error, scaled by all shifts up to this element, is above 2^125. A plan with a clip has no bound.", "Round by fewer bits in all, or less often.", COMPILE, plan('[[element]]\nkind = "round"\nshift = 64\n' * 3), "plan.toml"),
    (24, "The filter's taps or its place in the chain don't fit its form. PLANS.md says what each form asks.", "Take another form, or more ticks.", COMPILE, plan(FILTER.replace("[1, 1]", "[1, 2]") + 'form = "symmetric"\n'), "plan.toml"),
    (25, "The plan costs more than is accepted: `which` is `Terms`, `Latency`, `Work`, `Response` or `Cycle` (PLANS.md has the limits), and `value` is how much.", "Fewer or shorter filters, smaller factors in one group, or a rounding between CIC stages and long filters.", COMPILE, plan("".join(f'[[element]]\nkind = "filter"\ntaps = [{", ".join(["1537228672809129301"] * 1024)}]\n' for _ in range(1)), "version = 1\nwidth = 4\n"), None),
    (26, "A period of the chain has 2^31 ticks or more.", "Smaller Downs, or fewer ticks for a sample.", COMPILE, plan('[[element]]\nkind = "down"\nfactor = 4096\n' * 2, "version = 1\nwidth = 4\nticks = 65536\n"), "plan.toml"),
    (30, "A field of a line of samples or of a stimulus is no number.", "A number is a sign or none, and digits.", RUN, rows("samples", "1\nx\n"), "samples"),
    (31, "A number of a line is outside its range: a sample has the plan's width, `rst` and `ce` are 0 or 1, `in_data` has the range of its port.", "Clip or rescale the samples, or give the plan a greater width.", RUN, rows("samples", "7\n8\n"), "samples"),
    (32, "A line has another number of fields: one for a sample, three for a cycle of a stimulus (`rst`, `ce`, `in_data`).", "One sample on each line, with nothing but blanks beside it.", RUN, rows("samples", "1 2\n"), "samples"),
    (33, "A line has more than 4,096 bytes.", "Shorten it, comments too.", RUN, rows("samples", "#" * 4097 + "\n"), None),
    (34, "The file has more than 2^32 - 1 lines.", "Split it.", None, {}, None),
    (40, "No token begins at this place of the text: a byte that is none, a comment without an end, or a literal whose size or value doesn't fit.", "Look at the byte at `place`.", SIM, text("wire w; assign w = 9'd512;"), "text.v"),
    (41, "No text of the subset goes on so at this place.", "VERILOG.md has the grammar.", SIM, text("wire w"), "text.v"),
    (42, "At this place stands a word or mark of Verilog that the subset leaves out.", "The subset has no parameters, loops, functions or multiplications.", SIM, text("wire w; assign w = ce * rst;"), "text.v"),
    (43, "More than 200 levels are open, or an expression has more than 1,000 operators.", "Give a part of the expression a wire of its own.", SIM, text("wire w; assign w = " + "~" * 201 + "ce;"), None),
    (50, "A name is declared twice.", "Rename one.", SIM, text("wire w; wire w;"), "text.v"),
    (51, "A name has no declaration.", "Declare it, as a wire or reg.", SIM, text("wire w; assign w = v;"), "text.v"),
    (52, "A port isn't the one that a filter has: `clk`, `rst`, `ce` and `out_valid` have one bit, `in_data` and `out_data` 1 to 127, and there are no others.", "Compare the ports with VERILOG.md.", SIM, {"text.v": (WIRED + "endmodule\n").replace("input ce", "input [1:0] ce"), "stimulus": "1 0 0\n"}, "text.v"),
    (53, "An assignment drives an input or a reg, `<=` something that is no reg, or `clk` stands in an expression.", "Wires and outputs are assigned, regs are set in always blocks.", SIM, text("reg r; assign r = ce;"), "text.v"),
    (54, "A signal or an expression has more than 128 bits.", "Split it.", SIM, text("wire [128:0] w; assign w = ce;"), "text.v"),
    (55, "A bit or part is taken of a signal without a range, past its width, or with its ends turned.", "Look at the signal's range.", SIM, text("wire w; assign w = in_data[4];"), "text.v"),
    (56, "A signal has two drivers.", "Leave one.", SIM, text("assign out_valid = rst;"), "text.v"),
    (57, "An output, wire or reg has no driver.", "Drive it, or leave it out.", SIM, text("wire w;"), "text.v"),
    (58, "A wire depends on itself through assignments.", "Put a register into the loop.", SIM, text("wire v; wire w; assign v = w; assign w = v;"), "text.v"),
    (60, "The plan has no linear register of this name for which one bit is too few.", "The report names the registers; those with a tick and a value are the ones.", "extreme plan.toml s9_w0 out", plan(FILTER), None),
    (70, "The program doesn't build this plan yet: a filter of the form `half_band`, `folded` or `distributed`.", "Take another form; `noble` and `migrate` take every accepted plan.", COMPILE, plan(FILTER.replace("[1, 1]", "[1, 2, 1]") + 'form = "folded"\nslots = 2\n', "version = 1\nwidth = 4\nticks = 2\n"), "plan.toml"),
)


def run(program, words, files):
    """The exit status of the program on the words over these files, and the line that it prints."""
    with tempfile.TemporaryDirectory() as folder:
        for name, body in files.items():
            pathlib.Path(folder, name).write_text(body)
        ran = subprocess.run([program, *words.split()], cwd=folder, capture_output=True, text=True, check=False)
        return ran.returncode, ran.stderr.strip()


def part(program, fault):
    """What the page says of a fault."""
    status, means, do, words, files, shown = fault
    if words is None:
        return f"**{status}.** {means} *{do}*\n"
    found, line = run(program, words, files)
    if found != status:
        sys.exit(f"{words}: {found} in place of {status}: {line}")
    name = line.removeprefix("fault: ").split()[0]
    lines = [f"**{status} {name}.** {means} *{do}*", "", f"`{words}`" + (f", where `{shown}` is" if shown else ""), ""]
    if shown:
        lines += ["```", files[shown].rstrip("\n"), "```", ""]
    return "\n".join([*lines, f"`{line}`"]) + "\n"


def page(program):
    """The whole page."""
    return "\n".join([HEAD, *(part(program, fault) for fault in FAULTS)])


def main(words):
    """Writes the page, or compares it."""
    is_check = words[:1] == ["--check"]
    rest = words[1:] if is_check else words
    program = pathlib.Path(rest[0] if rest else TOP / "crates/filter_cli/out/filter_cli").resolve()
    made, target = page(str(program)), TOP / "docs" / "FAULTS.md"
    if is_check:
        sys.exit(0 if target.exists() and target.read_text() == made else 1)
    target.write_text(made)


if __name__ == "__main__":
    main(sys.argv[1:])
