#!/usr/bin/env python3
"""Count the lines that must be believed for a statement: those of every definition that it reaches.

Usage, from the repository's root:  python3 reference/believed.py CRATE/FILE.NAME..
as in  python3 reference/believed.py failover/Demand3.Demand3
Comments, blank lines and imports are not counted; the language's own library is not followed.
"""
import glob
import os
import re
import sys

USE = re.compile(r"^use Rattle\.(\w+)\.(?:specs|proofs)\.([\w.\-]+?)(?:\.\{([^}]*)\})?(?: as (\w+))?$", re.M)
HEAD = re.compile(r"\s*(?:(?:unfoldable |abbrev )(?:pub )?\S+ ?(?:\{.*)?:|(?:pub )?(?:record|data) \w)")
LAW = re.compile(r"(?!unfoldable |abbrev |(?:pub )?(?:record|data) )(?:pub )?[^\s(){}:]+(?: \{.*)? :(?: |$)")
NAME = re.compile(r"\s*(?:unfoldable |abbrev )?(?:pub )?(?:record |data )?(\S+)")


def has_laws(text):
    """Whether something that is neither a definition nor a record or a data type is declared, at the top or in a module."""
    level = 0
    for line in text.split("\n"):
        word = line.lstrip()
        if not word or word.startswith("--") or len(line) - len(word) > level:
            continue
        level = len(line) - len(word)
        if word.startswith("module "):
            level += 2
        elif LAW.match(word):
            return True
    return False


def imports(text):
    found = {}
    text = re.sub(r"\.\{\n([^}]*)\}", lambda m: ".{%s}" % " ".join(m.group(1).split()), text)
    for crate, module, names, alias in USE.findall(text):
        module = module.split(".")[0]
        if not names:
            found["@" + (alias or module)] = (crate, module)
        for name in filter(None, map(str.strip, names.split(","))):
            first, _, second = name.partition(" as ")
            found[second or first] = (crate, module, first)
    return found


def unprojected(text, uses):
    """The text without the fields that are taken of values, as in `s.lines` and `(f x).lines`; what an alias of a module leads to stays."""
    kept = lambda m: m.group(1) + (m.group(2) if "@" + m.group(1) in uses else "")
    text = re.sub(r"(?<![\w.'\-])([\w'\-]+)(\.[\w'\-]+)(?:\.[\w'\-]+)*", kept, text)
    return re.sub(r"(?<![\w'\-])(?:\.[\w'\-]+)+", "", text)


def definitions():
    found = {}
    for path in glob.glob("crates/*/specs/*.antt") + glob.glob("crates/*/proofs/*.antt"):
        crate, module = path.split(os.sep)[1], os.path.basename(path)[:-5]
        text = open(path).read()
        uses = imports(text)
        for block in re.split(r"\n\s*\n", text):
            lines = [l for l in block.split("\n") if l.strip() and not l.strip().startswith("--") and not l.startswith("use ")]
            heads = [k for k, l in enumerate(lines) if HEAD.match(l)] + [len(lines)]
            for k, end in zip(heads, heads[1:]):
                found[(crate, module, NAME.match(lines[k]).group(1))] = (lines[k:end], uses)
    return found


def reached(found, roots):
    seen, ahead = set(), list(roots)
    while ahead:
        key = ahead.pop()
        if key in seen or key not in found:
            continue
        seen.add(key)
        lines, uses = found[key]
        text = unprojected("\n".join(lines), uses)
        text = re.sub(r"([{;]\s*)[\w\-]+ = ", r"\1", text)
        if re.match(r"\s*(pub )?record", text):
            text = re.sub(r"(\n\s+(?:pub )?)[\w\-]+ :", r"\1:", text)
        for word in set(re.findall(r"[^\s(){}\[\],;.λ∷]+", text)):
            ahead.append(uses.get(word, (key[0], key[1], word)))
        for module, name in re.findall(r"(\w+)\.([\w\-]+)", text):
            if "@" + module in uses:
                ahead.append(uses["@" + module] + (name,))
    return seen


def main():
    found = definitions()
    roots = [tuple(re.split(r"[/.]", name)) for name in sys.argv[1:]]
    missing = [name for name in roots if name not in found]
    if not roots or missing:
        sys.exit("no such definition: %s" % missing if missing else __doc__)
    seen = reached(found, roots)
    print("%d lines in %d definitions" % (sum(len(found[k][0]) for k in seen), len(seen)))


if __name__ == "__main__":
    main()
