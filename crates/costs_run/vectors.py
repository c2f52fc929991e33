#!/usr/bin/env python3
"""Makes the vectors of the program (stdin) and the answers that it must give (stdout), from the independent implementation:
`vectors.py REFERENCE`, in this directory. REFERENCE costs gives lines CONDITION ADVERTISEMENT SCAN MATCHES COUNT, `-` an empty text.
"""
import subprocess
import sys

SEED, COUNT = 8, 3200


def padded(text, size):
    octets = b"" if text == "-" else bytes.fromhex(text)
    assert len(octets) <= size, text
    return bytes([len(octets)]) + octets + bytes(size - len(octets))


costs = subprocess.run([sys.argv[1], "costs", str(SEED), str(COUNT)], check=True, capture_output=True, text=True).stdout
lines, answers = [], []
for line in costs.splitlines():
    condition, adv, scan, matches, count = line.split()
    lines.append((padded(condition, 64) + padded(adv, 31) + padded(scan, 31)).hex().upper())
    answers.append(matches + " " + count)
open("stdin", "w").write("\n".join(lines) + "\n")
open("stdout", "w").write("\n".join(answers) + "\n")
print(len(answers), "vectors, the most", max(int(a.split()[1]) for a in answers))
