#!/usr/bin/env python3
"""Brings the names of definitions and lemmas to snake case: putIf is put_if, soundMonitor-row is sound_monitor-row.

usage: tools/respell.py [--dry] [TOP]      over the .antt and .rt files of TOP/crates; strings are left as they are

A name is a run of letters, digits, `_`, `'` and `-` that begins with a small letter. Types, facts and modules keep their
capitals: so does a part of a name that begins with one. Functions of src/ are in snake case already. A lemma that would
then have the name of the definition that it is about gets `_lem` first (LEMMAS). It runs once, right after port.py.
`--dry` prints each name and what becomes of it.
"""

import os
import re
import sys

WORD = re.compile(r"(?<![\w'\u2032\-])[a-z][\w'\u2032\-]*")
HUMP = re.compile(r"(?<=[a-z0-9])(?=[A-Z])")
SKIP = re.compile(r'"(?:[^"\\\n]|\\.)*"|(?<![\w\'])b?\'(?:[^\'\\\n]|\\.)\'')
# a source's comments, and its strings, which may go on over lines
LONG = re.compile(r'//[^\n]*|"(?:[^"\\]|\\.)*"', re.S)
# a unit is no hump; std has a count_by of its own
OWN = {"dBm": "d_bm", "dBm-most": "d_bm-most", "countBy": "counted_by"}
UNIT = "dBm"
# lemmas that differed from a definition by a hump alone
LEMMAS = set(
    "all_live count_at count_fits end_line fits_in fresh_in goes_of goes_on held_in held_whole is_read kept_in kept_of "
    "kept_row key_meets line_row mask_at model_in number_by pair_line pair_place pair_row parts_from position_at ran_on "
    "raw_of room_in row_fits row_put run_ends same_row small_of sum_fits told_at typed_at with_rows written_in".split()
)


def snake(name):
    """putIf -> put_if; a part after a dash that begins with a capital is a fact or a type, and stays."""
    if name in OWN:
        return OWN[name]
    parts = name.split("-")
    return "-".join(HUMP.sub("_", p).lower() if p[:1].islower() and HUMP.search(p) else p for p in parts)


def turned_line(line, lemmas):
    """A line with its names respelled, strings and characters left, a unit in a comment left."""
    mark = "--" if lemmas else "//"
    words = line.find(mark + " ")

    def word(m, base):
        name = m.group()
        at = base + m.start()
        if name == UNIT and 0 <= words < at:
            return name
        if lemmas and name in LEMMAS and line[at - 1 : at] != ".":
            return name + "_lem"
        return snake(name)

    out, at = [], 0
    for m in SKIP.finditer(line):
        out.append(WORD.sub(lambda w: word(w, at), line[at : m.start()]))
        out.append(m.group())
        at = m.end()
    out.append(WORD.sub(lambda w: word(w, at), line[at:]))
    return "".join(out)


def turned(text, lemmas):
    if not lemmas:
        out, at = [], 0
        for m in LONG.finditer(text):
            if m.group()[0] == '"' and "\n" in m.group():
                out += [turned_lines(text[at : m.start()], lemmas), m.group()]
                at = m.end()
        return "".join(out) + turned_lines(text[at:], lemmas)
    return turned_lines(text, lemmas)


def turned_lines(text, lemmas):
    return "\n".join(turned_line(l, lemmas) for l in text.split("\n"))


def files(top):
    for folder, dirs, names in os.walk(os.path.join(top, "crates")):
        dirs[:] = sorted(d for d in dirs if d != "out")
        for n in sorted(names):
            if n.endswith((".antt", ".rt")):
                yield os.path.join(folder, n)


def main():
    args = [a for a in sys.argv[1:] if a != "--dry"]
    dry = "--dry" in sys.argv
    for p in files(args[0] if args else "."):
        with open(p, encoding="utf-8") as f:
            text = f.read()
        new = turned(text, p.endswith(".antt"))
        if dry:
            for a, b in sorted(set(zip(WORD.findall(text), WORD.findall(new)))):
                if a != b:
                    print(p, a, b)
        elif new != text:
            with open(p, "w", encoding="utf-8") as f:
                f.write(new)


if __name__ == "__main__":
    main()
