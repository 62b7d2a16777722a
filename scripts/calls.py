#!/usr/bin/env python3
"""Writes docs/CALLS.md: the public calls of each crate, what each says of itself, and one place that calls it.

Usage: scripts/calls.py            writes the page
       scripts/calls.py --check    ends with 1 where the page isn't what the sources give
"""

import pathlib
import re
import sys

TOP = pathlib.Path(__file__).resolve().parent.parent
HEAD = """# Public calls

Made by `scripts/calls.py` from the sources. For each crate, in the order of `crates.txt`, the calls that it hands out: how each is written, what it
does, as its source says it, and a caller in another crate or else in its own, which is proved as every function is. The contract of a call stands
with it in the source; `alloc` is where memory comes from, and a call that takes one may answer `Memory`. Calls of a law do nothing: their contract
is the law.
"""
FN = re.compile(r"^(\s*)pub (?:const )?fn (\w+)")


def order():
    """The crates, as crates.txt names them."""
    lines = (TOP / "crates.txt").read_text().splitlines()
    return [line.split(":")[0].split()[0] for line in lines if ":" in line and not line.startswith("#")]


def exported(crate):
    """The names that the crate's lib.rt hands out."""
    root = TOP / "crates" / crate / "src" / "lib.rt"
    if not root.exists():
        return set()
    names = set()
    for group in re.findall(r"^pub use ([^;]+);", root.read_text(), re.M | re.S):
        for part in re.split(r"[{},]", group):
            names.add(part.strip().split("::")[-1].split(" as ")[-1])
    names |= set(re.findall(r"^pub (?:fn|struct|enum|trait) (\w+)", root.read_text(), re.M))
    return names - {""}


def signature(lines, at):
    """How the call is written, on one line, without its clauses."""
    text = ""
    for line in lines[at : at + 40]:
        if re.match(r"\s*(requires|ensures|decreases|ghost)\b", line) or line.strip() == "{":
            break
        text += " " + line.strip()
        if line.rstrip().endswith(("{", ";", "{}")):
            break
    text = re.sub(r"\s+", " ", text).strip().rstrip("{;").rstrip("{}").strip()
    return re.sub(r"\(\s+", "(", re.sub(r",?\s+\)", ")", text)).removeprefix("pub ").removeprefix("const ")


def said(lines, at):
    """What the source says of the call."""
    text = []
    at -= 1
    while at >= 0 and re.match(r"\s*(///|#\[)", lines[at]):
        if "///" in lines[at]:
            text.append(lines[at].split("///", 1)[1].strip())
        at -= 1
    return " ".join(reversed(text))


def calls_of(crate):
    """Each public call of the crate: its owner, its name, how it is written, and what it says of itself."""
    names = exported(crate)
    for file in sorted((TOP / "crates" / crate / "src").rglob("*.rt")):
        lines = file.read_text().split("\n#[cfg(test)]")[0].splitlines()
        owner = None
        for at, line in enumerate(lines):
            block = re.match(r"impl(?:<.*?>)?\s+(?:(\w+)(?:<.*>)?\s+for\s+)?(\w+)", line)
            if block:
                owner = block[2] if block[2] in names and not block[1] else ""
            elif re.match(r"\S", line) and not line.startswith(("}", "//", "#")):
                owner = None if not line.startswith(("impl", "{")) else owner
            found = FN.match(line)
            if not found:
                continue
            is_method = bool(found[1])
            if is_method and not owner or not is_method and found[2] not in names:
                continue
            yield (owner if is_method else None), found[2], signature(lines, at), said(lines, at)


def places():
    """The text of each source file, without its tests."""
    texts = {}
    for crate in order():
        for file in sorted((TOP / "crates" / crate / "src").rglob("*.rt")):
            texts[crate, file.relative_to(TOP)] = file.read_text().split("\n#[cfg(test)]")[0]
    return texts


def caller_of(crate, owner, name, texts):
    """A file that calls it, of another crate where there is one."""
    maker = rf"(?<!fn )(?:\b{owner}(?:::<[^>]*>)?::|\.){name}\(" if name not in ("new", "start") else rf"\b{owner}(?:::<[^>]*>)?::{name}\("
    call = re.compile(maker if owner else rf"(?<!fn )\b{name}(?:::<[^>]*>)?\(")
    found = [(where != crate, file) for (where, file), text in texts.items() if call.search(text) and uses(where, crate, text, owner)]
    others = [file for is_other, file in found if is_other]
    own = [file for is_other, file in found if not is_other]
    return next((str(file) for file in [*others, *own]), None)


def uses(where, crate, text, owner):
    """Whether a file of that crate can mean this crate's call."""
    return where == crate or f"{crate}::" in text


def page():
    """The whole page."""
    texts = places()
    parts = [HEAD]
    for crate in order():
        rows = []
        for owner, name, written, doc in calls_of(crate):
            caller = caller_of(crate, owner, name, texts)
            where = f"`{caller.removeprefix('crates/')}`" if caller else ("none: a law" if name.startswith("law_of") else "none by name")
            shown = f"{owner}: {written}" if owner else written
            rows.append(f"| `{shown}` | {doc.replace('|', chr(92) + '|')} | {where} |")
        if rows:
            parts.append("\n".join([f"## {crate}", "", "| call | what it does | a caller |", "|---|---|---|", *rows]) + "\n")
    return "\n".join(parts)


if __name__ == "__main__":
    target = TOP / "docs" / "CALLS.md"
    made = page()
    if sys.argv[1:] == ["--check"]:
        sys.exit(0 if target.exists() and target.read_text() == made else 1)
    target.write_text(made)
