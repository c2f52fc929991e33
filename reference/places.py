"""The places of Rattle source at which a run can go one way or another: its functions, comparisons, tests and arms.

A comparison is == != < <= > >=, also one whose answer is only kept. A test is an `if` or a `while`; it repeats a
comparison that stands at the top of its condition, and is a place of its own where it asks a call's answer or a bool.
An arm is one of a `match`. A `for` over numbers or over a slice compares its index with the end, and tests that. The
file tests.rt is left out.
"""
import os
import re

ROOT = os.path.dirname(os.path.dirname(os.path.abspath(__file__)))
# Of each kind what counter 0 and counter 1 mean; None: not used.
BOTH = ("false", "true")
SIDES = {"function": (None, "called"), "comparison": BOTH, "test": BOTH, "arm": (None, "taken")}
# The head of an impl: what is implemented, for what, and what stands between angles.
IMPLS = r"\bimpl(?:<[^>]*>)? (?:(\w+)(?:<([^>]*)>)? for )?(\w+)(?:<[^>]*>)? *{"
COMPARES = r"(?<![-=<>])(==|!=|<=|>=|<|>)(?![<>])"


class Place:
    """A function, comparison, test or arm of the source."""

    def __init__(self, kind, function, path, row, text, sign=""):
        self.kind, self.function, self.path, self.row, self.sign = kind, function, path, row, sign
        self.text, self.counts, self.linked, self.repeats = " ".join(text.split()), [0, 0], False, None

    def missing(self):
        return [word for word, count in zip(SIDES[self.kind], self.counts) if word and not count]


def read(path):
    with open(path, encoding="utf-8") as file:
        return file.read()


def closing(text, at):
    """The index behind the bracket that closes the one at an index."""
    depth = 0
    for i in range(at, len(text)):
        depth += (text[i] in "([{") - (text[i] in ")]}")
        if depth == 0:
            return i + 1
    raise ValueError("a bracket is not closed")


def blanked(text):
    """The text with blanks for its comments and contracts: every index and line stays."""
    blanks = lambda part: re.sub(r"[^\n]", " ", part)
    text = re.sub(r"//[^\n]*", lambda found: blanks(found.group()), text)
    for found in re.finditer(r"\b(requires|ensures)\b[^{]*", text):
        end = closing(text, found.end())
        text = text[:found.start()] + blanks(text[found.start():end]) + text[end:]
    return text


def top(text, pattern):
    """What is found of a pattern outside all brackets."""
    depths, depth = [], 0
    for letter in text:
        depth += letter in "([{"
        depths.append(depth)
        depth -= letter in ")]}"
    return [found for found in re.finditer(pattern, text) if depths[found.start()] == 0]


def reach(text, at, step):
    """The index at which an operand has ended, from beside its comparison's sign."""
    depth, opening = 0, "([" if step > 0 else ")]"
    while depth or text[at] not in "{}()[];,&|=" or text[at] in opening:
        depth += step * ((text[at] in "([") - (text[at] in ")]"))
        at += step
    return at


def compared(text, at, end):
    """The text of the comparison whose sign stands from one index to another."""
    found = text[reach(text, at - 1, -1) + 1:reach(text, end, 1)]
    return re.sub(r"^\s*(if|while|return)\s", "", found)


def places(text, name, path, start, end):
    """The places of a function's body, in order."""
    found, row = {}, lambda at: text.count("\n", 0, at) + 1
    for sign in re.finditer(COMPARES, text[start:end]):
        at = start + sign.start()
        found[at] = Place("comparison", name, path, row(at), compared(text, at, start + sign.end()), sign.group())
    for word in re.finditer(r"\b(if|while|for|match)\b", text[start:end]):
        at, first = start + word.start(), text.index("{", start + word.end()) + 1
        if word.group() == "match":
            for arm in top(text[first:closing(text, first - 1) - 1], r"[\w:]+(\([^()]*\))?\s*=>"):
                found[first + arm.start()] = Place("arm", name, path, row(first + arm.start()), arm.group()[:-2])
            continue
        begin = start + word.end()
        if word.group() == "for":
            over = text[begin:first - 1]
            found[at] = Place("comparison", name, path, row(at), "for" + over, "<")
            found[at + 1] = Place("test", name, path, row(at), "for" + over)
            found[at + 1].repeats = found[at]
            continue
        signs = top(text[begin:first - 1], COMPARES)
        found[at] = Place("test", name, path, row(at), text[begin:first - 1])
        found[at].repeats = found[begin + signs[0].start()] if signs else None
    return [found[at] for at in sorted(found)]


def owner(trait, words, kind):
    """The name that a module gives an impl: `impl From<Refusal> for u8` is U8FromRefusal there."""
    parts = [kind, trait, *re.findall(r"\w+", words or "")] if trait else [kind]
    return "".join(part[0].upper() + part[1:] for part in parts)


def functions(crate):
    """The functions of a crate: of each a list of its places, the first the function itself."""
    folder = os.path.join(ROOT, "crates", crate, "src")
    for file in sorted(set(os.listdir(folder)) - {"tests.rt"}):
        path, text = f"crates/{crate}/src/{file}", blanked(read(os.path.join(folder, file)))
        owners = [(owner(*m.groups()), m.start(), closing(text, m.end() - 1)) for m in re.finditer(IMPLS, text)]
        for found in re.finditer(r"\bfn (\w+)", text):
            body = re.search(r"[{;]", text[closing(text, text.index("(", found.end())):])
            if body.group() == ";":
                continue
            names = [name for name, start, end in owners if start < found.start() < end]
            name = "::".join([crate] + ([] if file == "lib.rt" else [file[:-3]]) + names + [found.group(1)])
            start = closing(text, text.index("(", found.end())) + body.start()
            itself = Place("function", name, path, text.count("\n", 0, found.start()) + 1, "fn " + found.group(1))
            yield [itself] + list(places(text, name, path, start, closing(text, start)))
