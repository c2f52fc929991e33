#!/usr/bin/env python3
"""Instructions a line of the program `standby`, by callgrind: `python3 reference/measure.py STANDBY [REFERENCE]`.

Journals: monitors and so many pairs under watch, then 400 more lines of one kind. A figure is the difference of two runs, with and
without these lines, divided by their number. Ticks with pairs held, packets of a watched device, of a device that no monitor matches, and
seen lines. "one key" and "16 keys" are packets with a resolvable private address that no monitor's key resolves, the monitors all with the same
key and each with its own; "public" is a packet with another address and the same monitors. With REFERENCE (the independent implementation built for release) its figures and the ratio stand beside.
With `time` for a first word: nanoseconds of user time a line, over 400,000 lines, instead.
"""
import os
import re
import resource
import subprocess
import sys
import tempfile

TIME = sys.argv[1:2] == ["time"]
OPCODE, LINES = 0xFC1E, 400000 if TIME else 400


def line(kind, number, payload):
    return bytes([kind]) + number.to_bytes(4, "little") + payload


def command(params):
    return OPCODE.to_bytes(2, "little") + bytes([len(params)]) + params


def packet(device, rssi, data=b"", address_type=0):
    return bytes([0, address_type]) + device + bytes([len(data)]) + data + bytes([rssi])


def device(n):
    return bytes([n, 1, 2, 3, 4, 5])


def conditions(monitors, tail):
    """A condition a monitor: one pattern, AD type 0xFF, the octet 0x55 at the front; or a key."""
    if tail in ("one key", "16 keys", "public"):
        return [bytes([3]) + bytes([0 if tail == "one key" else n]) + bytes(range(1, 16)) for n in range(monitors)]
    return [bytes([1, 1, 3, 0xFF, 0, 0x55])] * monitors


def journal(monitors, pairs, tail, of=None):
    frames = [(1, command(bytes([5, 1])))]
    # every monitor: high -60, low -80, 60 s, no sampling
    frames += [(1, command(bytes([3, 0xC4, 0xB0, 60, 0xFF]) + c)) for c in conditions(monitors, of or tail)]
    data = bytes([2, 0xFF, 0x55])
    refresh = [(2, packet(device(n), 0xC4, data)) for n in range(-(-pairs // monitors))]
    kinds = {"watched": (2, packet(device(0), 0xC4, data)), "unmatched": (2, packet(device(200), 0xC4, bytes([2, 0xFF, 0x66])))}
    private = (2, packet(bytes([1, 2, 3, 4, 5, 0x46]), 0xC4, data, 1))
    kinds |= {"one key": private, "16 keys": private, "public": (2, packet(device(0), 0xC4, data))}
    frames += refresh
    if tail in kinds:
        frames += [kinds[tail]] * LINES
    elif tail in ("tick", "no tick"):
        # a watch ends after 600 ticks: every 400 all pairs are refreshed
        frames += (refresh + [(3, b"")] * (400 if tail == "tick" else 0)) * (LINES // 400)
    text = "".join(line(k, i + 1, p).hex().upper() + "\n" for i, (k, p) in enumerate(frames))
    return text + ("".join(text.split("\n")[0] + "\n" for _ in range(LINES)) if tail == "seen" else "")


def instructions(words, image, text, folder):
    for name, content in (("image", image), ("journal", text)):
        with open(os.path.join(folder, name), "w") as f:
            f.write(content)
    out = os.path.join(folder, "callgrind")
    run = subprocess.run(["valgrind", "--tool=callgrind", f"--callgrind-out-file={out}"] + words + [os.path.join(folder, "image"), os.path.join(folder, "journal")],
                         stdout=subprocess.DEVNULL, stderr=subprocess.PIPE, text=True)
    return int(re.search(r"Collected : (\d+)", run.stderr).group(1))


def nanoseconds(words, image, text, folder):
    for name, content in (("image", image), ("journal", text)):
        with open(os.path.join(folder, name), "w") as f:
            f.write(content)
    before = resource.getrusage(resource.RUSAGE_CHILDREN).ru_utime
    subprocess.run(words + [os.path.join(folder, "image"), os.path.join(folder, "journal")], stdout=subprocess.DEVNULL, stderr=subprocess.DEVNULL, check=True)
    return (resource.getrusage(resource.RUSAGE_CHILDREN).ru_utime - before) * 1e9


def main():
    words = sys.argv[2:] if TIME else sys.argv[1:]
    cost = nanoseconds if TIME else instructions
    programs = [[words[0]]] + ([[words[1], "replay"]] if len(words) > 1 else [])
    image = "A00000000000" + OPCODE.to_bytes(2, "little").hex().upper() + "024D53\nA400000000024D53\nAF0000\n"
    with tempfile.TemporaryDirectory() as folder:
        print("| line | monitors | pairs |", " | ".join(os.path.basename(p[0]) for p in programs), "| ratio |" if len(programs) > 1 else "")
        for tail, monitors, pairs in (("tick", 1, 0), ("tick", 1, 8), ("tick", 1, 64), ("watched", 1, 8), ("watched", 1, 64), ("watched", 16, 64),
                                      ("unmatched", 1, 0), ("unmatched", 16, 64), ("unmatched", 16, 0), ("one key", 16, 0), ("16 keys", 16, 0),
                                      ("public", 16, 0), ("seen", 1, 8)):
            figures = []
            for words in programs:
                with_it = cost(words, image, journal(monitors, pairs, tail), folder)
                without = cost(words, image, journal(monitors, pairs, "no tick" if tail == "tick" else "", tail), folder)
                figures.append((with_it - without) / LINES)
            ratio = f" | {figures[0] / figures[1]:.2f} |" if len(figures) > 1 else " |"
            print(f"| {tail} | {monitors} | {pairs} | " + " | ".join(f"{f:.0f}" for f in figures) + ratio)


main()
