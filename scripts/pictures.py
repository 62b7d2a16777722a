#!/usr/bin/env python3
"""Writes the pictures of the docs: docs/chain.svg, the chain of examples/down_converter.toml with what its report says between the elements, and
docs/valid.svg, the cycles in which an output may be taken.

Usage: scripts/pictures.py            writes both
       scripts/pictures.py --check    ends with 1 where a picture isn't what the script draws
"""

import pathlib
import sys

TOP = pathlib.Path(__file__).resolve().parent.parent
INK, PALE, SHADE = "#1b1f24", "#8b949e", "#eef2f6"
STYLE = f"""<style>
text {{ font-family: Helvetica, Arial, sans-serif; font-size: 13px; fill: {INK}; }}
.small {{ font-size: 11px; fill: #57606a; }}
.mono {{ font-family: Menlo, Consolas, monospace; font-size: 12px; }}
.box {{ fill: {SHADE}; stroke: {INK}; stroke-width: 1.2; }}
.line {{ fill: none; stroke: {INK}; stroke-width: 1.4; }}
.grid {{ stroke: {PALE}; stroke-width: 0.6; stroke-dasharray: 2 3; }}
.taken {{ fill: #2da44e; fill-opacity: 0.16; }}
</style>"""


def svg(width, height, parts):
    """A picture of these parts."""
    return (f'<svg xmlns="http://www.w3.org/2000/svg" width="{width}" height="{height}" viewBox="0 0 {width} {height}">\n{STYLE}\n'
            f'<rect width="{width}" height="{height}" fill="white"/>\n' + "\n".join(parts) + "\n</svg>\n")


def text(x, y, words, kind="", anchor="middle"):
    """Words at a place."""
    kind = f' class="{kind}"' if kind else ""
    return f'<text x="{x}" y="{y}" text-anchor="{anchor}"{kind}>{words}</text>'


# what each element is, what it costs, and what stands behind it: bits, and ticks from value to value
CHAIN = (
    (("CIC", "4 stages, by 16"), "8 adders", "28 bits", "16 ticks"),
    (("round", "by 2^12"), "1 adder", "16 bits", "16 ticks"),
    (("symmetric filter", "63 taps, then by 2"), "138 adders, 63 windows", "33 bits", "32 ticks"),
    (("round", "by 2^15"), "1 adder", "18 bits", "32 ticks"),
)


def chain():
    """The chain from in_data to out_data, group by group."""
    box, gap, top, left = 138, 74, 46, 92
    parts = ['<defs><marker id="to" markerWidth="8" markerHeight="8" refX="7" refY="4" orient="auto">'
             f'<path d="M0,0 L8,4 L0,8 z" fill="{INK}"/></marker></defs>']
    middle = top + 26
    x = left
    parts += [text(8, middle - 8, "in_data", "mono", "start"), text(8, middle + 18, "12 bits", "small", "start"), text(8, middle + 32, "each tick", "small", "start"),
              f'<path class="line" marker-end="url(#to)" d="M8,{middle} H{x}"/>']
    for number, ((name, how), cost, bits, ticks) in enumerate(CHAIN, 1):
        parts += [text(x + box / 2, top - 12, f"group {number}", "small"), f'<rect class="box" x="{x}" y="{top}" width="{box}" height="52" rx="5"/>',
                  text(x + box / 2, top + 22, name), text(x + box / 2, top + 40, how, "small"), text(x + box / 2, top + 70, cost, "small"),
                  f'<path class="line" marker-end="url(#to)" d="M{x + box},{middle} h{gap}"/>',
                  text(x + box + gap / 2, middle + 18, bits, "small"), text(x + box + gap / 2, middle + 32, ticks, "small")]
        x += box + gap
    parts.append(text(x + 6, middle + 4, "out_data", "mono", "start"))
    return svg(x + 78, 130, parts)


# a module with `ticks = 1`, latency 2 and period 2, cycle by cycle: rst, ce, in_data, out_valid, out_data
CYCLES = ((1, 0, "", 0, ""), (0, 1, "x0", 0, ""), (0, 1, "x1", 0, ""), (0, 0, "junk", 1, "y0"), (0, 0, "junk", 1, "y0"), (0, 1, "x2", 1, "y0"), (0, 1, "x3", 0, ""),
          (0, 1, "x4", 1, "y1"), (0, 1, "x5", 0, ""), (0, 0, "junk", 1, "y2"), (0, 1, "x6", 1, "y2"), (0, 1, "x7", 0, ""))


def bit_line(y, left, step, column):
    """The line of a signal of one bit."""
    levels = [row[column] for row in CYCLES]
    path = f"M{left},{y - 16 * levels[0]}"
    for at, level in enumerate(levels):
        path += f" V{y - 16 * level} H{left + (at + 1) * step}"
    return f'<path class="line" d="{path}"/>'


def data_line(y, left, step, column):
    """The values of a signal of several bits: a box for each value, as long as it stands."""
    parts, at = [f'<path class="line" d="M{left},{y - 8} h{len(CYCLES) * step}" stroke-opacity="0.35"/>'], 0
    while at < len(CYCLES):
        end = at + 1
        while end < len(CYCLES) and CYCLES[end][column] == CYCLES[at][column] and CYCLES[at][column] not in ("", "junk"):
            end += 1
        if CYCLES[at][column]:
            parts += [f'<rect x="{left + at * step + 2}" y="{y - 17}" width="{(end - at) * step - 4}" height="18" rx="3" fill="{SHADE}" stroke="{INK}"/>',
                      text(left + (at + end) * step / 2, y - 4, CYCLES[at][column], "small")]
        at = end
    return parts


def valid():
    """When an output may be taken: where out_valid and ce are 1."""
    left, step, first, apart = 92, 46, 48, 34
    names = ("clk", "rst", "ce", "in_data", "out_valid", "out_data")
    height = first + apart * len(names) + 18
    parts = []
    for at, row in enumerate(CYCLES):
        if row[1] and row[3]:
            parts.append(f'<rect class="taken" x="{left + at * step}" y="22" width="{step}" height="{height - 40}"/>')
    tick = 0
    for at, row in enumerate(CYCLES):
        parts.append(f'<line class="grid" x1="{left + at * step}" y1="22" x2="{left + at * step}" y2="{height - 18}"/>')
        if row[1]:
            parts.append(text(left + (at + 0.5) * step, 16, f"tick {tick}", "small"))
            tick += 1
    for number, name in enumerate(names):
        y = first + apart * number
        parts.append(text(left - 12, y - 3, name, "mono", "end"))
        if name == "clk":
            path = f"M{left},{y}" + "".join(f" V{y - 16} h{step / 2} V{y} h{step / 2}" for _ in CYCLES)
            parts.append(f'<path class="line" d="{path}"/>')
        elif name in ("in_data", "out_data"):
            parts += data_line(y, left, step, 2 if name == "in_data" else 4)
        else:
            parts.append(bit_line(y, left, step, {"rst": 0, "ce": 1, "out_valid": 3}[name]))
    parts.append(text(left, height - 4, "take out_data in the shaded cycles: out_valid and ce are 1", "small", "start"))
    return svg(left + step * len(CYCLES) + 12, height, parts)


def main():
    pictures = {"chain.svg": chain(), "valid.svg": valid()}
    if "--check" in sys.argv[1:]:
        stale = [name for name, drawn in pictures.items() if not (TOP / "docs" / name).exists() or (TOP / "docs" / name).read_text() != drawn]
        for name in stale:
            print(f"docs/{name} isn't what scripts/pictures.py draws")
        return 1 if stale else 0
    for name, drawn in pictures.items():
        (TOP / "docs" / name).write_text(drawn)
    return 0


sys.exit(main())
