#!/usr/bin/env python3
"""Writes docs/DEFINITIONS.md: for each file of definitions what it says of itself at its head, and the names that it defines.

Usage: scripts/definitions.py            writes the page
       scripts/definitions.py --check    ends with 1 where the page isn't what the sources give, or a file has no head
"""

import pathlib
import re
import sys

TOP = pathlib.Path(__file__).resolve().parent.parent
HEAD = """# Definitions

Made by `scripts/definitions.py` from the heads of the files. Contracts cite definitions, and these stand in the `specs/` of each crate. For each crate, in
the order and the sections of `crates.txt`: its files, what each says of itself, the public text that it is after where it names one, and the names that
it defines. What a name means stands in the file, above the definition.
"""
DEFINED = re.compile(r"^(?:abbrev |unfoldable |opaque )*pub (?:abbrev |unfoldable |record |data )*([^\s:({]+)|^pub (?:record|data) (\S+)|^(?:abbrev|unfoldable) pub (\S+)")


def crates():
    """The sections of crates.txt, each with its crates in their order."""
    sections = []
    for line in (TOP / "crates.txt").read_text().splitlines():
        if line.startswith("#"):
            sections.append((line.removeprefix("#").strip(), []))
        elif ":" in line:
            sections[-1][1].append(line.split(":")[0].split()[0])
    return sections


def head_of(lines):
    """The comment at the head of a file, on one line."""
    text = []
    for line in lines:
        if not line.startswith("--"):
            break
        text.append(line.removeprefix("--").strip())
    return " ".join(text)


def names_of(lines):
    """The public names that a file defines, each once, in their order."""
    names = []
    for line in lines:
        found = DEFINED.match(line)
        name = next((it for it in found.groups() if it), "") if found else ""
        if name and name not in names and name not in ("mod", "use"):
            names.append(name)
    return names


def rows_of(crate):
    """The rows of a crate's files, and the files without a head."""
    rows, bare = [], []
    for file in sorted((TOP / "crates" / crate / "specs").glob("*.antt")):
        if file.stem == "Lib":
            continue
        lines = file.read_text().splitlines()
        head, names = head_of(lines), names_of(lines)
        if not head:
            bare.append(str(file.relative_to(TOP)))
        told = ", ".join(f"`{name}`" for name in names).replace("|", "\\|")
        rows.append(f"| `{file.stem}` | {head.replace('|', chr(92) + '|')} | {told} |")
    return rows, bare


def page():
    """The page, and the files without a head."""
    parts, bare = [HEAD], []
    for section, names in crates():
        own = []
        for crate in names:
            rows, lacking = rows_of(crate)
            bare += lacking
            if rows:
                own.append(f"### {crate}\n\n| file | what it says | names |\n|---|---|---|\n" + "\n".join(rows) + "\n")
        if own:
            parts.append(f"## {section[0].upper()}{section[1:]}\n")
            parts += own
    return "\n".join(parts), bare


def main():
    text, bare = page()
    target = TOP / "docs" / "DEFINITIONS.md"
    for file in bare:
        print(f"{file} has no head")
    if "--check" in sys.argv[1:]:
        same = target.exists() and target.read_text() == text
        if not same:
            print("docs/DEFINITIONS.md isn't what the sources give: run scripts/definitions.py")
        return 0 if same and not bare else 1
    target.write_text(text)
    return 0


sys.exit(main())
