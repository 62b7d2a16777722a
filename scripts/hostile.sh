#!/bin/sh
# Hostile bytes: plans, tap files, texts, samples and stimuli that are cut, changed or random, each given to the built program. Each run must end
# with a status of docs/FAULTS.md; with 0 and nothing on standard error, or with one line `fault: ..` there; with nothing on standard output; and with
# no file changed but the command's outputs. Ends with 1 at the first run that doesn't, whose files stay in the folder that is named.
# Usage: scripts/hostile.sh [COUNT [SEED [PROGRAM]]]   (10,000 runs, seed 1, crates/filter_cli/out/filter_cli, which ./wadrelion builds)
top=$(CDPATH= cd -- "$(dirname -- "$0")/.." && pwd) || exit 2
count=${1:-10000}
seed=${2:-1}
program=${3:-$top/crates/filter_cli/out/filter_cli}
[ -x "$program" ] || { echo "$0: there is no program $program" >&2; exit 2; }
exec python3 - "$top" "$count" "$seed" "$program" <<'PY'
import collections
import pathlib
import random
import re
import shutil
import subprocess
import sys
import tempfile

TOP, COUNT, SEED, PROGRAM = pathlib.Path(sys.argv[1]), int(sys.argv[2]), int(sys.argv[3]), sys.argv[4]
SECONDS = 60
STATUSES = {0} | {int(it) for it in re.findall(r"^\*\*(\d+)[ .]", (TOP / "docs/FAULTS.md").read_text(), re.M)}

PLANS = [it.read_bytes() for it in sorted((TOP / "examples").glob("*.toml"))] + [
    b'version = 1\nwidth = 8\nticks = 4\n[[element]]\nkind = "filter"\ntaps_file = "taps"\nform = "folded"\nslots = 2\n',
    b'version = 1\nwidth = 4\nticks = 8\n[[element]]\nkind = "up"\nfactor = 2\n[[element]]\nkind = "filter"\ntaps_file = "taps"\n[[element]]\nkind = "down"\nfactor = 4\n',
    b'version = 2\nwidth = 6\n[[element]]\nkind = "clip"\nbits = 4\n[[element]]\nkind = "round"\nshift = 2\nmode = "half_even"\n',
    b'version = 1\nwidth = 64\nticks = 65536\n[[element]]\nkind = "filter"\ntaps = [4611686018427387904]\nform = "distributed"\ngroup = 6\n',
]
TAPS = [b"1, 2, -3\n4\n", b"0\n" * 40, b"\n\n 7 \n9223372036854775807,-1\n"]
SAMPLES = [b"1\n-2\n3\n", b"7\n" * 50, b"0\n" * 3 + b"-8\n"]
STIMULI = [b"1 0 0\n0 1 5\n0 1 -8\n0 0 7\n", b"0 1 1\n" * 60]
TEXT = b"""module t (input clk, rst, ce, input signed [3:0] in_data,
          output out_valid, output signed [4:0] out_data);
  reg signed [3:0] a;
  reg v;
  wire signed [4:0] y;
  assign y = in_data + a;
  assign out_valid = v; // a comment
  assign out_data = (v == 1'h1) ? y : ~(y <<< 2); /* another */
  initial v = 1'h0;
  always @(posedge clk)
    if (rst) begin a <= 4'sh0; v <= 1'h0; end
    else if (ce) begin a <= in_data; v <= 1'h1; end
endmodule
"""
PIECES = [b"-", b"18446744073709551616", b"-9223372036854775808", b"2147483648", b"\x00", b"\xff\xfe", b"\r\n", b"[[element]]\n", b"/*", b"\"", b"(" * 300,
          b" + a" * 400, b"1e400", b"nan", b"<<<", b"endmodule", b"\n", b" " * 5000, b",", b"#", "\u2028".encode(), b"4'shz", b"taps = [", b"= = "]

draw = random.Random(SEED)


def hurt(bytes_):
    """The bytes with one to four changes, or bytes drawn at random."""
    if draw.random() < 0.05:
        return draw.randbytes(draw.randrange(0, 400))
    made = bytearray(bytes_)
    for _ in range(draw.choice((1, 1, 1, 2, 4))):
        at, end = sorted((draw.randrange(len(made) + 1), draw.randrange(len(made) + 1)))
        how = draw.randrange(7)
        if how == 0:
            del made[at:]
        elif how == 1:
            del made[at:min(end, at + 12)]
        elif how == 2:
            made[at:at] = made[at:min(end, at + 200)]
        elif how == 3:
            made[at:at] = draw.choice(PIECES)
        elif how == 4 and made:
            made[at % len(made)] = draw.randrange(256)
        elif how == 5:
            numbers = list(re.finditer(rb"-?\d+", bytes(made)))
            if numbers:
                one = draw.choice(numbers)
                made[one.start():one.end()] = draw.choice((b"0", b"-1", b"1", b"2", b"64", b"65", b"4097", b"-", b"99999999999999999999", b"0x1"))
        else:
            made[at:at + 8] = draw.randbytes(draw.randrange(0, 9))
    return bytes(made)


def case():
    """The words of a command, its files, and the names of its outputs."""
    files = {"plan": draw.choice(PLANS), "taps": draw.choice(TAPS), "samples": draw.choice(SAMPLES), "text": TEXT, "stimulus": draw.choice(STIMULI)}
    word = draw.choice(("compile", "run", "extreme", "noble", "migrate", "sim", "order"))
    reads = ["text", "stimulus"] if word in ("sim", "order") else ["plan", "taps"] + ["samples"] * (word == "run")
    for name in draw.sample(reads, draw.choice((1, 1, 1, 2))):
        files[name] = hurt(files[name])
    if draw.random() < 0.02:
        del files[draw.choice(reads)]
    register = draw.choice(("s1_w0", "s1_a0", "out_q", "s2_a1", "", "\u00e9", "x" * 300))
    words = {"compile": ["compile", "plan", "out", "report"], "run": ["run", "plan", "samples", "out"], "extreme": ["extreme", "plan", register, "out"],
             "noble": ["noble", "plan", "out"], "migrate": ["migrate", "plan", "out"], "sim": ["sim", "text", "stimulus", "out"], "order": ["order", "text", "stimulus", "out", str(draw.randrange(2**64))]}
    return words[word], files, ["out", "report"] if word == "compile" else ["out"]


def finding(words, files, outputs, folder):
    """What is wrong with a run of the command, if anything is, and its status."""
    for name, bytes_ in files.items():
        (folder / name).write_bytes(bytes_)
    try:
        ran = subprocess.run([PROGRAM, *words], cwd=folder, capture_output=True, timeout=SECONDS)
    except subprocess.TimeoutExpired:
        return f"took more than {SECONDS} seconds", None
    said = ran.stderr
    if ran.returncode not in STATUSES:
        return f"ended with {ran.returncode}: {said[:200]!r}", ran.returncode
    if ran.stdout:
        return "wrote on standard output", ran.returncode
    if ran.returncode == 0 and said or ran.returncode != 0 and not re.fullmatch(rb"fault: [^\n]+\n", said):
        return f"ended with {ran.returncode} and {said[:200]!r}", ran.returncode
    there = {it.name for it in folder.iterdir()}
    if there - set(files) - set(outputs):
        return f"made {there - set(files) - set(outputs)}", ran.returncode
    changed = [name for name, bytes_ in files.items() if name not in there or (folder / name).read_bytes() != bytes_]
    if changed:
        return f"changed {changed}", ran.returncode
    if ran.returncode == 0 and not there.issuperset(outputs):
        return "left out an output", ran.returncode
    return None, ran.returncode


def main():
    seen = collections.Counter()
    for number in range(COUNT):
        folder = pathlib.Path(tempfile.mkdtemp(prefix="hostile-"))
        words, files, outputs = case()
        found, status = finding(words, files, outputs, folder)
        if found:
            print(f"run {number} of seed {SEED}: {' '.join(words)!r} {found}; its files are in {folder}")
            return 1
        shutil.rmtree(folder)
        seen[status] += 1
    print(f"{COUNT} runs of seed {SEED}, no finding; by status:", " ".join(f"{status}: {many}" for status, many in sorted(seen.items())))
    return 0


sys.exit(main())
PY
