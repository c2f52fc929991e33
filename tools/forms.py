#!/usr/bin/env python3
"""Counts places of older forms in src/ (docs/DESIGN-PASS.md says what each count means).

    tools/forms.py [POINT]      the counts; with a point's number its places, one a line
"""
import collections
import glob
import os
import re
import sys

ROOT = os.path.dirname(os.path.dirname(os.path.abspath(__file__)))
FN = re.compile(r"^( *)(?:pub(?:\([a-z]+\))? )?fn (\w+)", re.M)


def files():
    for f in sorted(glob.glob(ROOT + "/crates/*/src/**/*.rt", recursive=True)):
        text = re.sub(r"//[^\n]*", "", open(f, encoding="utf-8").read())
        yield f[len(ROOT) + 8:], text


def body_at(text, i):
    """Where a function's body begins, from behind its name: the first brace that belongs to no clause; None where it has no body."""
    clause, deep = False, 0
    while i < len(text):
        c = text[i]
        if text.startswith(("requires", "ensures"), i) and not (text[i - 1].isalnum() or text[i - 1] == "_"):
            clause = True
        if c in "([":
            deep += 1
        elif c in ")]":
            deep -= 1
        elif c == ";" and not deep:
            return None
        elif c == "{" and not deep:
            if not clause:
                return i
            k, n = i, 0
            while k < len(text):
                n += (text[k] == "{") - (text[k] == "}")
                k += 1
                if not n:
                    break
            i, clause = k, False
            continue
        i += 1
    return None


def functions(text):
    """(name, signature, clauses, body) of each function with a body."""
    for m in FN.finditer(text):
        at = body_at(text, m.end())
        if at is None:
            continue
        end = text.find("\n" + m.group(1) + "}", at)
        one = text.find("}", at)
        if text.find("\n", at) > one >= 0:
            end = one
        head = text[m.end():at]
        cut = re.search(r"\b(?:requires|ensures)\b", head)
        yield m.group(2), head[:cut.start()] if cut else head, head[cut.start():] if cut else "", text[at + 1:end].lstrip("\n")


def structs(text, word):
    for m in re.finditer(r"\b" + word + r" (\w+)(?:<[^>]*>)? \{(.*?)\n *\}", text, re.S):
        yield m.group(1), m.group(2)


def enums():
    for f, text in files():
        for name, body in structs(text, "enum"):
            variants = re.findall(r"^\s+(\w+)\s*([({])?", body, re.M)
            units = [v for v, p in variants if not p]
            if len(variants) <= 3 and (len(units) == 1 or "Refusal" in body):
                yield f, "enum " + name


def flags():
    for f, text in files():
        for name, body in structs(text, "struct"):
            for field in re.findall(r"(\w+): bool", body):
                yield f, name + "." + field


CODES = r"(?:pub(?:\([a-z]+\))? )?const (\w+): (?:u8|i32) = (?:0x)?[0-9A-F]+;"


def codes():
    for f, text in files():
        for name in re.findall(CODES, text):
            yield f, "const " + name


def twins():
    """Functions whose text differs only in names that end in a width, in types of numbers and in constants."""
    seen = collections.defaultdict(list)
    for f, text in files():
        for name, sig, clauses, body in functions(text):
            body = re.sub(r"\b[ui](8|16|32|64|size)\b", "T", sig.split("(", 1)[-1] + body)
            body = re.sub(r"\b(?:\w+::)*[A-Z][A-Z0-9_]*\b|\b0x[0-9A-F]+\b|\b[0-9]+\b|b\"[^\"]*\"", "C", body)
            body = re.sub(r"([a-z])(?:8|16|32|64)\b", r"\1", re.sub(r"([a-z])(?:8|16|32|64)_", r"\1_", body))
            body = re.sub(r"\s+", "", body)
            if len(body) > 30 and name not in ("main", "fmt", "usage"):
                seen[body].append((f, name))
    for group in seen.values():
        if len(group) > 1:
            for f, name in group:
                others = list(group)
                others.remove((f, name))
                yield f, "fn " + name + " with " + ", ".join(g.split("/")[0] + " " + n for g, n in others)


def bound(body):
    """Names that a loop's body binds anew each turn."""
    names = set()
    for pattern in re.findall(r"\blet (?:mut )?([^=;]+?) =", body):
        names |= set(re.findall(r"[a-z_]\w*", re.sub(r":.*", "", pattern)))
    return names


def fixed(step, word, body):
    """Whether a step is made of numerals, constants and names that stay what they are (the index may stand in a bound: n - i)."""
    names = set(re.findall(r"(?<![\w.:])[a-z_]\w*(?!\w*\()", re.sub(r"\.(?:min|max)\(", ", (", step)))
    calls = set(re.findall(r"\b([a-z_]\w*)\(", re.sub(r"\.(?:min|max)\(", ", (", step))) - {"least", "most"}
    return not calls and not (names - {word, "least", "most", "min", "max"}) & bound(body) and "." not in re.sub(r"\.(?:min|max|len)\(", "(", step)


def steps(word, body):
    """Whether a loop's index goes up or down by a fixed step."""
    for step in re.findall(r"\b" + word + r" [+-]= ([^;]+);", body):
        if fixed(step, word, body):
            return True
    for name in re.findall(r"\b" + word + r" = (\w+);", body):
        for step in re.findall(r"\blet " + name + r" = " + word + r" [+-] ([^;]+);", body):
            if fixed(step, word, body):
                return True
    return False


def loops():
    """`while` loops whose index goes up or down by a fixed step."""
    for f, text in files():
        for name, sig, clauses, body in functions(text):
            for m in re.finditer(r"^( *)while ([^\n]*) \{\n(.*?)^\1\}", body, re.M | re.S):
                words = set(re.findall(r"[a-z_]\w*", m.group(2)))
                if any(steps(w, m.group(3)) for w in words):
                    yield f, "fn " + name + ": while " + m.group(2)


def searches():
    """Loops that only look for the first element that passes a test: any, all, position, find."""
    for f, text in files():
        for name, sig, clauses, body in functions(text):
            for m in re.finditer(r"^( *)(for|while) ([^\n]*) \{\n(.*?)^\1\}", body, re.M | re.S):
                inside = m.group(4)
                if m.group(2) == "while":
                    inside = re.sub(r"^ *\w+ [+-]= 1;\n", "", inside, flags=re.M)
                inside = re.sub(r"^ *let [^\n]*;\n", "", inside, flags=re.M).strip()
                if re.fullmatch(r"if (?:[^{}]*)\{\s*return [^{};]*;\s*\}", inside) or re.fullmatch(
                    r"if (?:[^{}]*)\{\s*if (?:[^{}]*)\{\s*return [^{};]*;\s*\}\s*\}", inside
                ):
                    yield f, "fn " + name + ": " + m.group(2) + " " + m.group(3)


def indexed():
    """`for i in a..b` that reads elements by the index alone: s[i]."""
    for f, text in files():
        for name, sig, clauses, body in functions(text):
            for m in re.finditer(r"^( *)for (\w+) in [^\n]*\.\.[^\n]* \{\n(.*?)^\1\}", body, re.M | re.S):
                uses = re.findall(r"(\w+\[)?\b" + m.group(2) + r"\b(\])?", m.group(3))
                if uses and all(a and b for a, b in uses):
                    yield f, "fn " + name + ": for " + m.group(2)


HAND = (r"^(?:least|most_of|digit|digit_of|digit_at|flag|one_if|wide\w*|octet|same|same_\w+|"
        r"is_same|equal\w*|less\w*|below|is_below|is_seen|is_stopped|copied|to_\w+|from_\w+)$")
NUMBERS = r"^(?:number_of|\w+_number)$"


def by_body(body):
    """A body that is a cast, 1 or 0 for a test, the lesser or greater of two, or a difference or sum that stays in its bounds."""
    b = re.sub(r"\s+", " ", body).strip()
    if re.fullmatch(r"\w+ as \w+|\(\w+ % \d+\) as u\d+", b):
        return True
    m = re.fullmatch(r"if ([^{}]*) \{ return ([^{};]*); \} ([^{};]*)", b) or re.fullmatch(r"if ([^{}]*) \{ ([^{};]*) \} else \{ ([^{};]*) \}", b)
    if not m:
        return False
    test, one, other = m.groups()
    if {one, other} == {"0", "1"}:
        return True
    c = re.fullmatch(r"(.+?) (<=|<|>=|>|==) (.+)", test)
    if not c:
        return False
    a, d = c.group(1), c.group(3)
    strip = lambda x: re.sub(r" as \w+$", "", x).strip("()")  # noqa: E731
    if {strip(one), strip(other)} == {strip(a), strip(d)}:
        return True
    if one == "0" and re.fullmatch(r"\(?\w+(?:\.\w+)* - \w+(?:\.\w+)*\)?(?: as \w+)?", other):
        return True
    return bool(re.search(r"::MAX", test) and re.search(r"::MAX|\+", one + other))


def hand():
    for f, text in files():
        for name, sig, clauses, body in functions(text):
            if re.match(HAND, name) or (re.match(NUMBERS, name) and "-> u8" in sig) or by_body(body):
                yield f, "fn " + name


def facts():
    """Facts in the contracts of three or more functions, and three or more parameters in three or more functions."""
    where = collections.defaultdict(set)
    for f, text in files():
        for name, sig, clauses, body in functions(text):
            flat = re.sub(r"\s+", " ", clauses)
            for c in re.findall(r"requires(?: \w+)? \{(.*?)\}(?= ensures| requires|$)", flat):
                for fact in c.split("×"):
                    fact = fact.strip().strip("()").strip()
                    if fact:
                        where["fact " + fact].add((f, name))
            ps = re.findall(r"(\w+): ([^,()]+(?:\([^)]*\))?)", sig[sig.find("(") + 1:])
            ps = [p + ": " + t.strip() for p, t in ps]
            for i in range(len(ps) - 2):
                where["parameters " + ", ".join(ps[i:i + 3])].add((f, name))
    for fact, fns in sorted(where.items()):
        if len(fns) >= 3:
            f = sorted(fns)[0][0]
            yield f, fact + " in " + str(len(fns))


def buffers():
    """Structs with an array and a number of how much of it is used."""
    for f, text in files():
        for name, body in structs(text, "struct"):
            if re.search(r": \[", body) and re.search(r"\b(?:count|len|k|n|wrote|used|held|size|at|rows|most): u", body):
                yield f, "struct " + name


def switches():
    """Functions with three or more tests of one value against constants, each with a return."""
    for f, text in files():
        for name, sig, clauses, body in functions(text):
            tests = collections.Counter(re.findall(r"if (\w+) == (?:[A-Z0-9x]+|\w+::[A-Z_0-9]+)\b[^{]*\{\n\s+return", body))
            if any(n >= 3 for n in tests.values()):
                yield f, "fn " + name


POINTS = [
    ("1 own enums like Option and Result", enums),
    ("1 flags in structs", flags),
    ("1 codes as constants", codes),
    ("2 twins", twins),
    ("3 while loops by a fixed step", loops),
    ("3 for loops that only index", indexed),
    ("3 searches by a loop", searches),
    ("4 by hand", hand),
    ("5 facts and parameters that repeat", facts),
    ("6 buffers with a count", buffers),
    ("7 switches", switches),
]

for title, places in POINTS:
    if len(sys.argv) > 1 and title[0] != sys.argv[1]:
        continue
    found = list(places())
    print(f"{title}: {len(found)}")
    if len(sys.argv) > 1:
        for f, what in found:
            print("   ", f, what)
