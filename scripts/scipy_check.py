#!/usr/bin/env python3
"""Compares `run` with scipy over 1,000,000 samples, for each plan that is named (by default those of examples/ without a tap file).

Usage: scripts/scipy_check.py [--program PROGRAM] [PLAN..]   (by default crates/filter_cli/out/filter_cli, which `./wadrelion` builds)

scipy.signal.convolve adds up products of whole numbers of 64 bits; a plan whose values may be greater is left out. Ends with 1 where a value differs, and with 2
where scipy isn't installed.
"""

import argparse
import pathlib
import subprocess
import sys
import tempfile
import tomllib

TOP = pathlib.Path(__file__).resolve().parent.parent
COUNT = 1_000_000

try:
    import numpy
    from scipy.signal import convolve
except ImportError:
    print("scipy isn't installed")
    sys.exit(2)


def filtered(values, taps, up, down):
    """As many values as there are inputs for: those from index 0 on that the inputs reach."""
    stuffed = numpy.zeros(len(values) * up, dtype=numpy.int64)
    stuffed[::up] = values
    return convolve(stuffed, numpy.array(taps, dtype=numpy.int64), method="direct")[: len(stuffed) : down]


def moving(factor, delay, stages):
    """The weights of a cascade: as many moving sums as stages."""
    taps = numpy.ones(1, dtype=numpy.int64)
    for _ in range(stages):
        taps = numpy.convolve(taps, numpy.ones(factor * delay, dtype=numpy.int64))
    return taps


def rounded(values, element):
    """The values over 2^shift, to a whole number."""
    shift, mode = element["shift"], element.get("mode", "half_up")
    if mode == "floor":
        return values >> shift
    if mode == "half_up":
        return (values + (1 << (shift - 1))) >> shift
    low = values >> shift
    return (values + (1 << (shift - 1)) - 1 + (low & 1)) >> shift


def through(element, values):
    """What an element makes of values."""
    kind = element["kind"]
    if kind == "up":
        return filtered(values, [1], element["factor"], 1)
    if kind == "down":
        return filtered(values, [1], 1, element["factor"])
    if kind == "filter":
        return filtered(values, element["taps"], 1, 1)
    if kind in ("cic_down", "cic_up"):
        taps = moving(element["factor"], element.get("delay", 1), element["stages"])
        return filtered(values, taps, *((1, element["factor"]) if kind == "cic_down" else (element["factor"], 1)))
    if kind == "round":
        return rounded(values, element)
    return numpy.clip(values, -(1 << (element["bits"] - 1)), (1 << (element["bits"] - 1)) - 1)


def gain(element):
    """How much greater than its inputs an element's outputs may be."""
    if element["kind"] == "filter":
        return sum(abs(it) for it in element["taps"])
    if element["kind"] in ("cic_down", "cic_up"):
        return (element["factor"] * element.get("delay", 1)) ** element["stages"]
    return 1


def fits(plan):
    """Whether all values fit 63 bits, without what roundings take away."""
    most = 1 << (plan["width"] - 1)
    for element in plan["element"]:
        most *= gain(element)
    return most < 2**62


def check(program, file):
    """Whether the plan's values are those of scipy."""
    plan = tomllib.loads(file.read_text())
    if any("taps_file" in it for it in plan["element"]) or not fits(plan):
        print(f"{file.name}: left out")
        return True
    top = 1 << (plan["width"] - 1)
    samples = numpy.random.default_rng(1).integers(-top, top, COUNT, dtype=numpy.int64)
    wanted = samples
    for element in plan["element"]:
        wanted = through(element, wanted)
    with tempfile.TemporaryDirectory() as folder:
        numpy.savetxt(f"{folder}/samples", samples, fmt="%d")
        subprocess.run([program, "run", str(file.resolve()), "samples", "out"], cwd=folder, check=True)
        found = numpy.loadtxt(f"{folder}/out", dtype=numpy.int64, ndmin=1)
    count = min(len(found), len(wanted))
    same = bool((found[:count] == wanted[:count]).all()) and len(wanted) - len(found) < 64 and len(found) <= len(wanted)
    print(f"{file.name}: {len(found)} values of {COUNT} samples {'are the same' if same else 'differ'}")
    return same


def main():
    words = argparse.ArgumentParser()
    words.add_argument("--program", default=str(TOP / "crates/filter_cli/out/filter_cli"))
    words.add_argument("plans", nargs="*", type=pathlib.Path)
    words = words.parse_args()
    plans = words.plans or sorted((TOP / "examples").glob("*.toml"))
    return 0 if all([check(words.program, it) for it in plans]) else 1


sys.exit(main())
