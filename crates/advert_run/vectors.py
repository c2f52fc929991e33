#!/usr/bin/env python3
"""Makes the vectors of the program (stdin) and the answers that it must give (stdout).

Written from document 01, section Conditions, and document 02, T-03 and T-06; it shares nothing with the crate's definitions and code.
Each vector carries the answer worked out by hand; the functions below work it out again, and nothing is written where the two differ.
AES-128 is OpenSSL's, by the command of crates/aes_run/vectors.py. Run it in this directory.
"""
import subprocess


def structures(adv):
    """AD type and content of each AD structure; length 0 or a structure past the end ends the list."""
    found = []
    while adv:
        length, rest = adv[0], adv[1:]
        if length == 0 or length > len(rest):
            break
        found.append((rest[0], rest[1:length]))
        adv = rest[length:]
    return found


def patterns(condition):
    """The patterns of a condition of type 1, or None where it is malformed."""
    if not condition or condition[0] < 1:
        return None
    rest, found = condition[1:], []
    for _ in range(condition[0]):
        if not rest or rest[0] < 3 or len(rest) < 1 + rest[0]:
            return None
        found.append((rest[1], rest[2], rest[3:1 + rest[0]]))
        rest = rest[1 + rest[0]:]
    return None if rest else found


def form(kind, condition):
    if kind == 3:
        return "0" if len(condition) == 16 else "1"
    if kind == 1:
        return "1" if patterns(condition) is None else "0"
    if kind == 2:
        return "0" if condition and {1: 2, 2: 4, 3: 16}.get(condition[0]) == len(condition) - 1 else "1"
    if kind == 4:
        return "0" if len(condition) == 7 and condition[0] in (0, 1) else "1"
    return "2"


def ah(key, prand):
    """The Core Specification's function, of a key and 3 octets, the most significant octet first."""
    command = ["openssl", "enc", "-aes-128-ecb", "-nopad", "-K", key.hex()]
    return subprocess.run(command, input=bytes(13) + prand, capture_output=True, check=True).stdout[13:]


def match(kind, condition, address_type, address, adv, scan):
    # each text ends its own list; the advertisement's structures come first
    both = structures(adv) + structures(scan)
    if kind == 1:
        for ad_type, start, octets in patterns(condition):
            for t, content in both:
                if t == ad_type and content[start:start + len(octets)] == octets:
                    return "1"
        return "0"
    if kind == 2:
        uuid = condition[1:]
        for t, content in both:
            if t in {1: (2, 3), 2: (4, 5), 3: (6, 7)}[condition[0]]:
                for i in range(0, len(content), len(uuid)):
                    if content[i:i + len(uuid)] == uuid:
                        return "1"
        return "0"
    if kind == 3:
        number = address[::-1]
        hashed = ah(condition[::-1], number[:3])
        return "1" if address_type == 1 and number[0] >> 6 == 0b01 and number[3:] == hashed else "0"
    return "1" if condition[0] == address_type and condition[1:] == address else "0"


A = "060504030201"
TWO = "02 03010001 06FF000006FFFF"
NAME = "0409546162"
U16 = "0102030405060708090A0B0C"
U128 = "000102030405060708090A0B0C0D0E0F"
# The Core Specification's sample of ah, the least octet first: IRK ec0234a357c8ad05341010a60a397d9b, prand 708194, hash 0dfbaa.
IRK = bytes.fromhex("ec0234a357c8ad05341010a60a397d9b")[::-1].hex()
RPA = "aafb0d948170"
LONG = "1EFF" + "".join("%02X" % (0x80 + i) for i in range(29))

# title, or condition type, condition, advertisement, answer, and for types 3 and 4 address type and address; or condition type, condition,
# a pair of advertisement and scan response, answer
vectors = [
    "Source document 000, appendix: packets A, B, C, D",
    (1, TWO, "020101 07095461626C6574 05FF0006FFFF", "01"),
    (1, TWO, "020101 07095461626C6574 04FF0006FF", "01"),
    (1, TWO, "07095461626C6574 05FF0006FFFF", "01"),
    (1, TWO, "020102 05FF0006FF01", "00"),
    "P9: a UUID that straddles two others, and the two",
    (2, "01 1810", "0503 0D18 1018", "00"),
    (2, "01 0D18", "0503 0D18 1018", "01"),
    (2, "01 1018", "0503 0D18 1018", "01"),
    "Patterns: offsets at the edge of a content of three octets",
    (1, "01 03090054", NAME, "01"),
    (1, "01 03090161", NAME, "01"),
    (1, "01 03090262", NAME, "01"),
    (1, "01 03090362", NAME, "00"),
    (1, "01 03090062", NAME, "00"),
    (1, "01 03090162", NAME, "00"),
    (1, "01 0409016162", NAME, "01"),
    (1, "01 050900546162", NAME, "01"),
    (1, "01 06090054616200", NAME, "00"),
    (1, "01 0409026200", NAME, "00"),
    (1, "01 0309FF54", NAME, "00"),
    (1, "01 0409026203", NAME + "030354", "00"),
    "Patterns: longer than any section, AD type that is not there, AD types 0 and FF",
    (1, "01 1F0900" + "54" * 29, NAME, "00"),
    (1, "01 03080054", NAME, "00"),
    (1, "01 03000041", "020041", "01"),
    (1, "01 03FF0041", "02FF41", "01"),
    "Patterns: a later section of the AD type, one of several patterns",
    (1, "01 03090055", "020954 020955", "01"),
    (1, "01 03090055", "020954 020A55", "00"),
    (1, "02 03090041 03090055", "020955", "01"),
    (1, "02 03090055 03090041", "020955", "01"),
    (1, "02 03090042 03090041", "020955", "00"),
    (1, "0F" + "03090041" * 14 + "03090155", "03094255", "01"),
    (1, "0F" + "03090041" * 15, "03094255", "00"),
    (1, "15" + "03090041" * 20 + "03090155", "03094255", "01"),
    "Advertisements: empty, and lengths 0, 1, 30, 31 and 255",
    (1, "01 03010006", "", "00"),
    (1, "01 03010006", "00", "00"),
    (1, "01 03010006", "00020106", "00"),
    (1, "01 03010006", "02010600", "01"),
    (1, "01 03FF0000", "020106 00 05FF0006FFFF", "00"),
    (1, "01 03010006", "0109 020106", "01"),
    (1, "01 03090006", "0109 020106", "00"),
    (1, "01 03090002", "0109 020106", "00"),
    (1, "01 03010006", "01", "00"),
    (1, "01 03FF1C9C", LONG, "01"),
    (1, "01 03FF1D9C", LONG, "00"),
    (1, "01 04FF1B9B9C", LONG, "01"),
    (1, "01 04FF1C9C9C", LONG, "00"),
    (1, "01 03FF0080", "1F" + LONG[2:], "00"),
    (1, "01 03010006", "020106 1FFF0006", "01"),
    (1, "01 03FF0000", "020106 1FFF0006", "00"),
    (1, "01 03FF0000", "FFFF0006FFFF", "00"),
    (1, "01 03010006", "020106 FFFF0006", "01"),
    "Advertisements: a structure past the end by one, and one that ends there",
    (1, "01 03FF0000", "020106 04FF0006", "00"),
    (1, "01 03FF0000", "020106 03FF0006", "01"),
    (1, "01 03010006", "030106", "00"),
    "A section's octets inside the content of another section",
    (2, "01 0D18", "06FF03020D1800", "00"),
    (1, "01 0302000D", "06FF03020D1800", "00"),
    (1, "01 05FF0003020D", "06FF03020D1800", "01"),
    "Forms of type 1",
    (1, "", "020106", "1-"),
    (1, "00", "020106", "1-"),
    (1, "01", "020106", "1-"),
    (1, "00 03010006", "020106", "1-"),
    (1, "02 03010006", "020106", "1-"),
    (1, "01 03010006 03010006", "020106", "1-"),
    (1, "01 03010006 00", "020106", "1-"),
    (1, "01 020100", "020106", "1-"),
    (1, "01 0101", "020106", "1-"),
    (1, "01 00", "020106", "1-"),
    (1, "01 04010006", "020106", "1-"),
    (1, "01 030100", "020106", "1-"),
    (1, "02 03010006 020100", "020106", "1-"),
    (1, "01 FF0100" + "06" * 252, "020106", "1-"),
    (1, "01 FF0100" + "06" * 253, "020106", "00"),
    "Forms of type 2",
    (2, "", "03030D18", "1-"),
    (2, "01", "03030D18", "1-"),
    (2, "01 0D", "03030D18", "1-"),
    (2, "01 0D1800", "03030D18", "1-"),
    (2, "00 0D18", "03030D18", "1-"),
    (2, "02 0D18", "03030D18", "1-"),
    (2, "01 0D180000", "03030D18", "1-"),
    (2, "03 " + U128[2:], "", "1-"),
    (2, "03 " + U128 + "10", "", "1-"),
    (2, "04 " + U128, "", "1-"),
    "UUIDs: AD types 02 to 07, and octets in the order sent",
    (2, "01 0D18", "03020D18", "01"),
    (2, "01 0D18", "03030D18", "01"),
    (2, "01 0D18", "03040D18", "00"),
    (2, "01 0D18", "03160D18", "00"),
    (2, "01 180D", "03030D18", "00"),
    (2, "02 01020304", "050401020304", "01"),
    (2, "02 01020304", "050501020304", "01"),
    (2, "02 01020304", "050301020304", "00"),
    (2, "02 01020304", "050601020304", "00"),
    (2, "03 " + U128, "1106" + U128, "01"),
    (2, "03 " + U128, "1107" + U128, "01"),
    (2, "03 " + U128, "1105" + U128, "00"),
    (2, "03 " + U128, "1108" + U128, "00"),
    "UUIDs: a rest that is too short, a later section, two UUIDs of 16 octets",
    (2, "01 BB02", "0403AAAABB 020106", "00"),
    (2, "01 AAAA", "0403AAAABB", "01"),
    (2, "01 AABB", "0403AAAABB", "00"),
    (2, "01 AAAA", "0203AA", "00"),
    (2, "01 AAAA", "0103", "00"),
    (2, "01 BBBB", "0302AAAA 0303BBBB", "01"),
    (2, "01 AAAA", "0302AAAA 0303BBBB", "01"),
    (2, "02 05060708", "080501020304050607", "00"),
    (2, "03 " + U128, "1007" + U128[:30], "00"),
    (2, "03 " + U128, "1207FF" + U128, "00"),
    (2, "03 " + U128, "2107" + "FF" * 16 + U128, "01"),
    (2, "03 " + U128, "2107" + "FF" * 8 + U128 + "FF" * 8, "00"),
    "UUIDs: at each offset of a list of 12 octets",
] + [(2, "01" + U16[2 * k:2 * k + 4], "0D02" + U16, "01" if k in (0, 2, 4, 6, 8, 10) else "00") for k in range(11)] + [
    (2, "02" + U16[2 * k:2 * k + 8], "0D05" + U16, "01" if k in (0, 4, 8) else "00") for k in range(9)] + [
    "Addresses",
    (4, "00" + A, "", "01", 0, A),
    (4, "01" + A, "", "01", 1, A),
    (4, "01" + A, "", "00", 0, A),
    (4, "00" + A, "", "00", 1, A),
    (4, "00 060504030202", "", "00", 0, A),
    (4, "00 070504030201", "", "00", 0, A),
    (4, "00 010203040506", "", "00", 0, A),
    (4, "00" + A, "020106", "01", 0, A),
    (4, "02" + A, "", "1-", 2, A),
    (4, "00" + A[2:], "", "1-", 0, A),
    (4, "00" + A + "00", "", "1-", 0, A),
    (4, "00", "", "1-", 0, A),
    (4, "", "", "1-", 0, A),
    "Keys: 15, 16 and 17 octets, none, one, a condition of another type; zeros",
    (3, IRK[2:], "", "1-", 1, RPA),
    (3, IRK[:30], "", "1-", 1, RPA),
    (3, IRK, "", "01", 1, RPA),
    (3, IRK + "00", "", "1-", 1, RPA),
    (3, "00" + IRK, "", "1-", 1, RPA),
    (3, "", "", "1-", 1, RPA),
    (3, "9B", "", "1-", 1, RPA),
    (3, "01 03010006", "020106", "1-", 1, RPA),
    (3, "00" * 16, "", "00", 1, RPA),
    (3, U128, "", "00", 1, RPA),
    "Keys: the public type; top bits 00, 10, 11 with the hash of that prand; the sample's hash with other top bits",
    (3, IRK, "", "00", 0, RPA),
    (3, IRK, "", "00", 2, RPA),
    (3, IRK, "", "00", 1, "60a761948130"),
    (3, IRK, "", "00", 1, "1b0da89481b0"),
    (3, IRK, "", "00", 1, "6e5efc9481f0"),
    (3, IRK, "", "00", 1, "aafb0d948130"),
    (3, IRK, "", "00", 1, "aafb0d9481b0"),
    (3, IRK, "", "00", 1, "aafb0d9481f0"),
    "Keys: a bit of the hash, of prand, of the key changed; the key and the address in the wrong octet order; the hash from the other end",
    (3, IRK, "", "00", 1, "abfb0d948170"),
    (3, IRK, "", "00", 1, "aafb8d948170"),
    (3, IRK, "", "00", 1, "aafb0d958170"),
    (3, IRK, "", "00", 1, "aafb0d948171"),
    (3, "9a" + IRK[2:], "", "00", 1, RPA),
    (3, IRK[:30] + "6c", "", "00", 1, RPA),
    (3, bytes.fromhex(IRK)[::-1].hex(), "", "00", 1, RPA),
    (3, IRK, "", "00", 1, bytes.fromhex(RPA)[::-1].hex()),
    (3, IRK, "", "00", 1, "5f9d15948170"),
    "Keys: another address of the same key, of zeros; the texts do not count",
    (3, IRK, "", "01", 1, "d6cd79c7315a"),
    (3, "00" * 16, "", "00", 1, "d6cd79c7315a"),
    (3, "00" * 16, "", "01", 1, ah(bytes(16), b"\x40\0\0")[::-1].hex() + "000040"),
    (3, IRK, "020106", "01", 1, RPA),
    (3, IRK, ("020106", "02FFAA"), "01", 1, RPA),
    (3, IRK, ("020106", "02FFAA"), "00", 0, RPA),
    "Other types",
    (0, "01 03010006", "020106", "2-"),
    (5, "00" + A, "", "2-", 0, A),
    (255, "01 0D18", "03030D18", "2-"),
    "Scan responses: in the advertisement, in the scan response, in both, in neither",
    (1, "01 03FF00AA", ("02FFAA", ""), "01"),
    (1, "01 03FF00AA", ("", "02FFAA"), "01"),
    (1, "01 03FF00AA", ("02FFAA", "02FFAA"), "01"),
    (1, "01 03FF00AA", ("02FFBB", "02FFBB"), "00"),
    (1, "01 03FF00AA", ("", ""), "00"),
    (1, "02 03FF00AA 03FF00BB", ("02FFCC", "02FFBB"), "01"),
    (2, "01 0D18", ("03020D18", "03031018"), "01"),
    (2, "01 0D18", ("03031018", "03020D18"), "01"),
    (2, "01 0D18", ("03031018", "03021018"), "00"),
    (4, "00" + A, ("", "02FFAA"), "01"),
    "Scan responses: found only in a later section, of either text",
    (1, "01 03FF00AA", ("02FFBB 02FFAA", "02FFBB"), "01"),
    (1, "01 03FF00AA", ("02FFBB", "02FFBB 02FFAA"), "01"),
    (1, "01 03FF00AA", ("02FFBB 02FFCC", "02FFBB 020109 02FFAA"), "01"),
    (2, "01 0D18", ("03031018", "03031018 03020D18"), "01"),
    "Scan responses: each text ends its own list",
    (1, "01 03FF00AA", ("00", "02FFAA"), "01"),
    (1, "01 03FF00AA", ("02FFBB 00 02FFAA", "02FFBB"), "00"),
    (1, "01 03FF00AA", ("09FF", "02FFAA"), "01"),
    (1, "01 03FF00AA", ("1FFFAA", "02FFAA"), "01"),
    (1, "01 03FF00AA", ("02FFBB", "00 02FFAA"), "00"),
    (1, "01 03FF00AA", ("02FFBB", "03FFAA"), "00"),
    (1, "01 03FF00AA", ("02FFBB", "02FFAA 00"), "01"),
    "Scan responses: nothing straddles the two texts",
    (1, "01 03FF00AA", ("02FF", "AA"), "00"),
    (1, "01 04FF00AABB", ("02FFAA", "BB"), "00"),
    (1, "01 04FF00AABB", ("03FFAA", "BB02FFAA"), "00"),
    (2, "01 0D18", ("02030D", "020318"), "00"),
    (2, "01 0D18", ("03030D", "18"), "00"),
    "Scan responses: 31 octets each",
    (1, "01 03FF1C9C", ("1EFE" + LONG[4:], LONG), "01"),
    (1, "01 03FF1D9C", (LONG, LONG), "00"),
]

lines, answers = [], []
for v in vectors:
    if isinstance(v, str):
        lines.append("# " + v)
        continue
    kind, condition, expected = v[0], bytes.fromhex(v[1]), v[3]
    adv, scan = (bytes.fromhex(text) for text in (v[2] if isinstance(v[2], tuple) else (v[2], "")))
    address_type, address = (v[4], bytes.fromhex(v[5])) if len(v) > 4 else (0, bytes.fromhex(A))
    f = form(kind, condition)
    answer = f + (match(kind, condition, address_type, address, adv, scan) if f == "0" else "-")
    assert answer == expected, (v, answer)
    fields = bytes([kind]), condition, bytes([address_type]), address, adv
    fields += (scan,) if isinstance(v[2], tuple) else ()
    lines.append(" ".join(field.hex().upper() for field in fields))
    answers.append(answer)
open("stdin", "w").write("\n".join(lines) + "\n")
open("stdout", "w").write("\n".join(answers) + "\n")
print(len(answers), "vectors")
