#!/usr/bin/env python3
"""Makes the sessions of the program (stdin) and what it must write (stdout): vectors.py REFERENCE, in this directory.

REFERENCE is the independent implementation, built (reference/README.md). It is given each session as an image and a
journal, and what it writes is what the program must write. The edges are those of document 01, Commands, on both
sides; the rest are commands that the independent implementation makes up, and images with pairs whose monitors are
then cancelled.
"""
import os
import subprocess
import sys
import tempfile

REFERENCE = sys.argv[1]
LIMIT = 65536
LAST_NUMBER = 0xFFFFFFFF
MONITORS = 16


def octets(text):
    return bytes.fromhex(text)


def run(*words):
    return subprocess.run([REFERENCE, *words], capture_output=True, text=True, check=False).stdout


def fresh(prefix, filter_on=0):
    head = bytes(4) + bytes([filter_on]) + octets("1EFC") + bytes([len(prefix)]) + prefix
    first = bytes(4) + bytes([len(prefix)]) + prefix
    return "A0" + head.hex().upper() + "\nA4" + first.hex().upper() + "\nAF0000\n"


def replayed(image, commands):
    """What the independent implementation writes for the image and the commands in the frames that follow it."""
    head = octets(image.split("\n")[0])
    number, opcode = int.from_bytes(head[1:5], "little"), head[6:8]
    lines = []
    for params in commands:
        number += 1
        frame = b"\x01" + number.to_bytes(4, "little") + opcode + bytes([len(params)]) + params
        lines.append(frame.hex().upper() + "\n")
    with tempfile.TemporaryDirectory() as folder:
        paths = [os.path.join(folder, name) for name in ("image", "journal")]
        for path, text in zip(paths, (image, "".join(lines))):
            with open(path, "w", encoding="ascii") as file:
                file.write(text)
        return without_editions(run("replay", *paths))


def without_editions(text):
    """The text without its A4 lines: the program runs on the core of a block, which has no editions."""
    return "".join(line + "\n" for line in text.splitlines() if not line.startswith("A4"))


def poke(at, row):
    return "01" + at.to_bytes(2, "little").hex().upper() + row.hex().upper() + "\n"


# Places in the block (docs/DESIGN.md): a monitor's row, what version 2 adds in it, a pair's row, the number of pairs.
ROWS, ROW, ADDED, PAIRS, PAIR, COUNT = 40, 96, 71, 1576, 57, 5224


def session(image, commands):
    """The program's lines: an empty block, the rows of the image, the commands, the image."""
    lines, pairs = ["00\n"], 0
    for text in image.split():
        row = octets(text)[1:]
        if text.startswith("A0"):
            lines.append(poke(0, row))
        elif text.startswith(("A1", "A5")):
            end = 7 + row[6]
            lines.append(poke(ROWS + ROW * row[0], row[:end]))
            if row[end:]:
                lines.append(poke(ROWS + ROW * row[0] + ADDED, row[end:]))
        elif text.startswith("A3"):
            lines.append(poke(PAIRS + PAIR * pairs, row))
            pairs += 1
        elif text.startswith("AF"):
            lines.append(poke(COUNT, row[1:]))
    lines += ["02" + params.hex().upper() + "\n" for params in commands]
    return "".join(lines + ["03\n"])


GOOD = "C4B00300"
ADDRESS = "0400060504030201"


def pattern(size):
    """A condition of type 1 of that many octets: one pattern."""
    return "01" + bytes([1, size - 2, 9, 0] + [0x41] * (size - 4)).hex()


ADD = "03" + GOOD + ADDRESS
NAMED = "010103090041"
PEER, KEY = "060504030201", "9B" * 16


def second(options="20", reports="02", settings=GOOD, peer_type="00", key="00" * 16, condition=NAMED):
    """Version 2 of the monitor command (document 02, T-13)."""
    return "0F" + settings + options + reports + PEER + peer_type + key + condition


# Both sides of what the tables of 0F forbid, each condition with its type.
SECONDS = [second(options) for options in "00 40 80 C0 01 04 05 10 15 20 E0 02 08 0A 22 3F".split()]
SECONDS += [second(options, key=KEY) for options in "00 40 02 08 0A 22 3F".split()]
SECONDS += [second("02", key="00" * 15 + "01"), second("08", key="01" + "00" * 15)]
SECONDS += [second(options, key=KEY, condition=condition) for condition in ("03" + KEY, ADDRESS, "02011810")
            for options in "01 02 04 08 0F 10 20 30 F0".split()]
SECONDS += [second(reports=reports, settings="C4B003" + sampling) for reports in "00 01 02 03 04 08 FE FF".split()
            for sampling in ("00", "01", "FE", "FF")]
SECONDS += [second(options, peer_type=kind) for options in ("20", "01") for kind in ("00", "01", "02", "FF")]

THRESHOLDS = (
    "8081 8180 8181 8281 1413 1414 1514 1415 1314 7F00 007F 00FF FF00 1481 1581 1480"
).split()

CONDITIONS = ["", "00", "010F", "01020301", "0103090041", "010309004100", "0203090041", "020309004103090142"]
CONDITIONS += ["0104090041", "0002", "011810", "0118", "01181000", "0201020304", "02010203", "03" + "07" * 16]
CONDITIONS += ["03" + "07" * 15, "04" + "07" * 16, "00060504030201", "01060504030201", "02060504030201"]
CONDITIONS += ["000605040302", "0006050403020100"]


def edges():
    """Sessions of commands, from document 01, Commands, with the edge on both sides."""
    yield b"", ["00", "0000", "01", "0102", "02", "06", "0E", "0E00", "10", "FF", "80AABB"]
    yield bytes(range(1, 33)), ["00", "000000"]
    # lengths of 03, 04 and 05
    yield b"MS", ["03", "03C4", "03C4B0", "03C4B003", "03C4B00300", "03C4B0030004", ADD]
    yield b"MS", [ADD, "04", "0400FF", "0400", "05", "050100", "0501"]
    # thresholds, high above low
    for high_low in THRESHOLDS:
        yield b"MS", ["03" + high_low + "0300" + ADDRESS]
    # interval, sampling
    for interval in ("00", "01", "3C", "3D", "FF"):
        yield b"MS", ["03C4B0" + interval + sampling + ADDRESS for sampling in ("00", "01", "FE", "FF")]
    # types 0 to 5, and malformed conditions of each type
    for kind in ("00", "01", "02", "03", "04", "05", "FF"):
        yield b"MS", ["03" + GOOD + kind + condition for condition in CONDITIONS]
    # conditions of 64 and 65 octets; types 2 to 4 over 64
    yield b"MS", ["03" + GOOD + pattern(size) for size in (63, 64, 65, 120)]
    yield b"MS", ["03" + GOOD + kind + "00" * 65 for kind in ("03", "02", "04")]
    # the 16th monitor and the 17th; with 16 live, the other statuses come first
    first = ["03" + GOOD + "03", "03" + GOOD + "0402", "03C4C40300" + ADDRESS, "03" + GOOD + pattern(65), "03C4B0"]
    yield b"MS", [ADD] * 17 + first + ["0410", "040F", "040F", ADD, ADD, "0400", "0407", ADD, ADD, ADD]
    # the next handle is the lowest not live
    yield b"MS", [ADD, ADD, ADD, "0401", ADD, "0402", "0400", ADD, ADD, ADD]
    yield b"MS", [ADD, ADD, ADD, ADD, "0403", "0402", "0401", "0400", "0400", ADD]
    yield b"MS", ["0400", "0401", "040F", "0410", "04FF"]
    # enable, in both states
    yield b"MS", ["0500", "0502", "05FF", "0501", "0501", "0502", "0500", "0500"]
    # keys of none, 15, 16 and 17 octets; of zeros; twice the same; with 16 monitors live a key of 15 is 0x12 still, one of 16 is 0x07
    yield b"MS", ["03" + GOOD + "03" + "9B" * size for size in (0, 1, 15, 16, 17, 64, 65)] + ["03" + GOOD + "03" + "00" * 16] * 2
    yield b"MS", ["03" + GOOD + "03" + "9B" * 16] * 17 + ["03" + GOOD + "03" + "9B" * size for size in (0, 15, 17, 65)]
    # 0F: its lengths, 03's checks, what its tables forbid, each cancelled at once so that there is room; with 16 monitors live
    yield b"MS", ["0F", second()[:12], second(condition=""), second(condition="01"), second(), "0400", second(condition="0101")]
    for settings in ("15B00300", "C4800300", "C4C50300", "C4C40300", "C4B00000", "C4B03C00", "C4B03D00"):
        yield b"MS", [second(settings=settings)]
    yield b"MS", [second(condition=kind + "0103090041") for kind in ("00", "01", "02", "03", "04", "05")]
    yield b"MS", [second(condition=pattern(size)) for size in (64, 65, 224)] + [second("40", condition=pattern(65))]
    for start in range(0, len(SECONDS), 16):
        yield b"MS", [command for each in SECONDS[start:start + 16] for command in (each, "0400")]
    yield b"MS", [ADD, second()] * 8 + SECONDS[::3] + ["0403", second("E1", "F7", peer_type="01", key=KEY), "0404", ADD, "0403"]
    yield b"MS", [second("FF", "FF", key=KEY), second(), second("10", "00"), "0401", second("01", "03"), ADD]
    # the order of 03's statuses: a threshold, the order, the interval, the type come before a key's length
    yield b"MS", ["0315B0030003", "03C4B0000003", "03B0C4030003", "0315B0000005", "03C4B0003D0400", "0315"]


def made_up(count):
    """Sessions of the commands that the independent implementation makes up."""
    prefix, commands = None, []
    for row in run("vectors", "commands", "7", str(count)).split("\n"):
        if not row:
            continue
        _, _, settings, params, _ = row.split(" ")
        if settings != prefix and commands:
            yield octets("" if prefix == "-" else prefix), commands
            commands = []
        prefix = settings
        commands.append(octets(params))
    yield octets("" if prefix == "-" else prefix), commands


def has_numbers(image):
    """Whether the image's first line can be read, and has numbers left for a command a monitor and one more."""
    try:
        head = octets(image.split("\n")[0])
    except ValueError:
        return False
    return int.from_bytes(head[1:5], "little") + MONITORS < LAST_NUMBER


def with_pairs(count):
    """Images with pairs, and commands that cancel their monitors."""
    with tempfile.TemporaryDirectory() as folder:
        run("cases", folder, "5", "400")
        names = sorted(name for name in os.listdir(folder) if name.endswith(".image"))
        images = []
        for name in names:
            with open(os.path.join(folder, name), encoding="ascii") as file:
                image = file.read()
            handles = [line[2:4] for line in image.split() if line.startswith("A3")]
            one = sum(line.startswith("A4") for line in image.split()) == 1
            if len(handles) > 2 and len(set(handles)) > 1 and has_numbers(image) and one:
                images.append(image)
        images.sort(key=len)
        step = max(1, len(images) // count)
        for image in images[::step][:count] + images[-1:]:
            live = [line[2:4] for line in image.split() if line.startswith(("A1", "A5"))]
            yield image, [octets("04" + handle) for handle in live[1::2]]
            yield image, [octets("04" + handle) for handle in reversed(live)] + [octets("03" + GOOD + ADDRESS)]


def main():
    given, told = [], []
    plans = [(fresh(prefix), [octets(c) for c in commands]) for prefix, commands in edges()]
    plans += [(fresh(prefix), commands) for prefix, commands in made_up(220)]
    plans += list(with_pairs(4))
    for image, commands in plans:
        answers = replayed(image, commands)
        if answers.strip() == "10":
            continue
        given.append(session(image, commands))
        told.append(answers)
    text = "".join(given)
    if len(text) > LIMIT:
        sys.exit(f"{len(text)} characters are too many")
    with open("stdin", "w", encoding="ascii") as file:
        file.write(text)
    with open("stdout", "w", encoding="ascii") as file:
        file.write("".join(told))
    print(f"{len(plans)} sessions, {text.count(chr(10) + '02')} commands, {len(text)} characters")


main()
