#!/usr/bin/env python3
"""Makes the vectors of the program (stdin) and the answers that it must give (stdout).

Written from document 01, The image ("Sound"), Commands (03) and Conditions, and document 02; it shares nothing with the crate's
definitions and code. Each vector carries the answer worked out by hand; `sound` below works it out again, and nothing is written where the two
differ. Run it in this directory. With the word `full` it writes one vector to standard output instead: 65,535 checks of a block
with 16 monitors and 64 pairs; with `fresh`, 65,535 checks of a fresh one.
"""
import sys

# The block (docs/DESIGN.md): the head, sixteen rows of monitors, sixty-four rows of pairs, their number. In a monitor's row what
# version 2 adds stands behind the room of the condition.
HEAD, MONITOR, PAIR = 40, 96, 57
MONITORS, PAIRS = HEAD, HEAD + 16 * MONITOR
ADDED = 71
COUNT = PAIRS + 64 * PAIR
SIZE = COUNT + 1


def signed(octets):
    return int.from_bytes(octets, "little", signed=True)


def well_formed(kind, c):
    if kind == 1:
        if not c or c[0] < 1:
            return False
        rest = c[1:]
        for _ in range(c[0]):
            if not rest or rest[0] < 3 or rest[0] + 1 > len(rest):
                return False
            rest = rest[rest[0] + 1:]
        return not rest
    if kind == 2:
        return len(c) > 0 and (c[0], len(c) - 1) in ((1, 2), (2, 4), (3, 16))
    if kind == 3:  # document 02, T-03
        return len(c) == 16
    return kind == 4 and len(c) == 7 and c[0] <= 1


def forbidden(added, sampling, kind):
    """What the tables of 0F forbid (document 02, T-13)."""
    options, reports, peer_type, irk = added[0], added[1], added[8], added[9:]
    bits = {n for n in range(8) if options & 1 << n}
    return (not bits & set(range(6)) or (bits & {1, 3} and not any(irk)) or (bits & {0, 1, 2, 3} and kind in (3, 4))
            or (reports & 1 and sampling != 0) or peer_type > 1)


def monitor(row, place):
    """None where the row is not sound, 0 where it is empty, else interval, sampling period, whether duplicates are filtered."""
    if not any(row):
        return 0
    handle, high, low, interval, sampling, kind, n = row[0], signed(row[1:2]), signed(row[2:3]), *row[3:7]
    added = row[ADDED:]
    if handle != place or n > 64 or any(row[7 + n:ADDED]):
        return None
    if not (-127 <= high <= 20 and -127 <= low <= 20 and high >= low and 1 <= interval <= 60):
        return None
    if any(added) and forbidden(added, sampling, kind):
        return None
    return (interval, sampling, added[1] & 1) if well_formed(kind, row[7:7 + n]) else None


def pair(row, monitors, position):
    handle, address_type = row[0], row[1]
    silent, ticks, packets = int.from_bytes(row[8:10], "little"), row[10], int.from_bytes(row[11:15], "little")
    total, kept, event, n = signed(row[15:23]), signed(row[23:24]), row[24], row[25]
    if handle > 15 or not monitors[handle] or address_type > 1 or n > 31 or any(row[26 + n:]):
        return False
    interval, period, filters = monitors[handle]
    if event > 3 and not (filters and event == 0xFF and n == 0):
        return False
    if not -127 <= kept <= 20:
        return False
    if silent >= 10 * interval:
        return False
    if 1 <= period <= 0xFE:
        if ticks >= period or packets > position or not -127 * packets <= total <= 20 * packets:
            return False
    elif ticks or packets:
        return False
    return packets > 0 or (total == 0 and (filters or (event == 0 and n == 0)))


def sound(b):
    if len(b) != SIZE or b[4] > 1 or int.from_bytes(b[5:7], "little") < 0xFC00 or b[7] > 32 or any(b[8 + b[7]:40]):
        return False
    monitors = [monitor(b[MONITORS + MONITOR * h:MONITORS + MONITOR * h + MONITOR], h) for h in range(16)]
    if None in monitors or b[COUNT] > 64 or any(b[PAIRS + PAIR * b[COUNT]:COUNT]):
        return False
    rows = [b[PAIRS + PAIR * i:PAIRS + PAIR * i + PAIR] for i in range(b[COUNT])]
    if len({r[:8] for r in rows}) != len(rows):
        return False
    position = int.from_bytes(b[0:4], "little")
    return all(pair(r, monitors, position) for r in rows)


def fresh():
    b = bytearray(SIZE)
    b[5:10] = bytes.fromhex("1EFC024D53")
    return b


def text(parts, times=1):
    out = times.to_bytes(2, "little")
    for at, octets in parts:
        out += at.to_bytes(2, "little") + len(octets).to_bytes(2, "little") + octets
    return out.hex().upper()


def mon(h, high=0xC4, low=0xB0, interval=3, sampling=5, kind=4, condition=bytes.fromhex("00060504030201")):
    return (MONITORS + MONITOR * h, bytes([h, high, low, interval, sampling, kind, len(condition)]) + condition)


def added(h, options=0x20, reports=2, peer=bytes(7), irk=bytes(16)):
    """What version 2 adds to the row of a monitor; the peer is its address and its type."""
    return (MONITORS + MONITOR * h + ADDED, bytes([options, reports]) + peer + irk)


def watch(i, handle=0, kind=0, address="060504030201", silent=0, ticks=0, packets=0, total=0, event=0, data=b"", kept=0xC4):
    return (PAIRS + PAIR * i, bytes([handle, kind]) + bytes.fromhex(address) + silent.to_bytes(2, "little") + bytes([ticks])
            + packets.to_bytes(4, "little") + total.to_bytes(8, "little", signed=True) + bytes([kept, event, len(data)]) + data)


def count(n):
    return (COUNT, bytes([n]))


def position(n):
    return (0, n.to_bytes(4, "little"))


one = [position(9), mon(0), count(1)]
other = "0A0504030201"
pattern = bytes([1, 63, 0x16, 0]) + bytes(61)
vectors = [
    ("fresh", [], 1), ("filter on", [(4, b"\1")], 1), ("filter 2", [(4, b"\2")], 0),
    ("opcode 0xFC00", [(5, b"\x00\xFC")], 1), ("opcode 0xFBFF", [(5, b"\xFF\xFB")], 0),
    ("prefix of 32", [(7, b"\x20" + b"P" * 32)], 1), ("prefix of 33", [(7, b"\x21" + b"P" * 32)], 0),
    ("octet behind the prefix", [(39, b"\1")], 0), ("prefix shorter", [(7, b"\1")], 0),
    ("a monitor", [mon(0)], 1), ("a monitor at 15", [mon(15)], 1), ("at another place", [(MONITORS + MONITOR, mon(0)[1])], 0),
    ("octet in an empty row", [(MONITORS + 5, b"\1")], 0), ("octet behind the condition", [mon(0), (MONITORS + 14, b"\1")], 0),
    ("last octet of a condition's room", [mon(0), (MONITORS + 70, b"\1")], 0), ("last octet of a row", [mon(0), (MONITORS + 95, b"\1")], 0),
    ("high 20", [mon(0, high=20)], 1), ("high 21", [mon(0, high=21)], 0), ("low -127", [mon(0, low=0x81)], 1),
    ("low -128", [mon(0, low=0x80)], 0), ("high at low", [mon(0, high=0xB0)], 1), ("low one above high", [mon(0, low=0xC5)], 0),
    ("interval 0", [mon(0, interval=0)], 0), ("interval 1", [mon(0, interval=1)], 1),
    ("interval 60", [mon(0, interval=60)], 1), ("interval 61", [mon(0, interval=61)], 0),
    ("type 0", [mon(0, kind=0)], 0), ("key of 15", [mon(0, kind=3, condition=bytes(15))], 0),
    ("key of 16", [mon(0, kind=3, condition=bytes(16))], 1), ("key of 17", [mon(0, kind=3, condition=bytes(17))], 0), ("type 5", [mon(0, kind=5)], 0),
    ("malformed", [mon(0, condition=bytes(6))], 0), ("uuid", [mon(0, kind=2, condition=b"\1\x0A\x18")], 1),
    ("uuid type 4", [mon(0, kind=2, condition=b"\4\x0A\x18")], 0), ("address type 2", [mon(0, condition=b"\2" + bytes(6))], 0),
    ("pattern of 64", [mon(0, kind=1, condition=pattern[:1] + bytes([62]) + pattern[2:64])], 1),
    ("condition length 65", [mon(0, kind=1, condition=pattern[:65]), (MONITORS + 6, b"\x41")], 0),
    ("a pair", one + [watch(0)], 1), ("pair not counted", one[:2] + [watch(0)], 0), ("counted pair missing", [count(1)], 0),
    ("zero row counted", one, 1), ("two zero rows", one[:2] + [count(2)], 0),
    ("dead handle", one + [watch(0, handle=1)], 0), ("handle 16", one + [watch(0, handle=16)], 0),
    ("handle 255", one + [watch(0, handle=255)], 0), ("two pairs", one[:2] + [count(2), watch(0), watch(1, address=other)], 1),
    ("equal pairs", one[:2] + [count(2), watch(0), watch(1, silent=3)], 0),
    ("other address type", one[:2] + [count(2), watch(0), watch(1, kind=1)], 1), ("pair address type 2", one + [watch(0, kind=2)], 0),
    ("silent 29", one + [watch(0, silent=29)], 1), ("silent 30", one + [watch(0, silent=30)], 0),
    ("ticks 4 of 5", one + [watch(0, ticks=4)], 1), ("ticks 5 of 5", one + [watch(0, ticks=5)], 0),
    ("packets at position", one + [watch(0, packets=9)], 1), ("packets past it", one + [watch(0, packets=10), (3, b"\0")], 0),
    ("sum at 20", one + [watch(0, packets=1, total=20)], 1), ("sum at 21", one + [watch(0, packets=1, total=21)], 0),
    ("sum at -254", one + [watch(0, packets=2, total=-254)], 1), ("sum at -255", one + [watch(0, packets=2, total=-255)], 0),
    ("sum without packets", one + [watch(0, total=1)], 0), ("event without packets", one + [watch(0, event=1)], 0),
    ("data without packets", one + [watch(0, data=b"\0")], 0), ("data 31", one + [watch(0, packets=1, data=bytes(31))], 1),
    ("data length 32", one + [watch(0, packets=1), (PAIRS + 25, b"\x20")], 0),
    ("octet behind the data", one + [watch(0, packets=1, data=b"\1"), (PAIRS + 27, b"\1")], 0),
    *((f"octet {at} of the data's room, without data", one + [watch(0), (PAIRS + 26 + at, b"\1")], 0) for at in (0, 23, 24, 27, 28, 29, 30)),
    ("kept RSSI -127", one + [watch(0, kept=0x81)], 1), ("kept RSSI -128", one + [watch(0, kept=0x80)], 0),
    ("kept RSSI 20", one + [watch(0, kept=20)], 1), ("kept RSSI 21", one + [watch(0, kept=21)], 0),
    ("event 3", one + [watch(0, packets=1, event=3)], 1), ("event 4", one + [watch(0, packets=1, event=4)], 0),
    ("sampling 0", [mon(0, sampling=0), count(1), watch(0)], 1), ("sampling 0, ticks", [mon(0, sampling=0), count(1), watch(0, ticks=1)], 0),
    ("sampling 255", [mon(0, sampling=255), count(1), watch(0)], 1),
    ("sampling 255, packets", [position(9), mon(0, sampling=255), count(1), watch(0, packets=1)], 0),
    ("sampling 254", [mon(0, sampling=254), count(1), watch(0, ticks=253)], 1),
    ("octet behind the pairs", one + [watch(0), (COUNT - 1, b"\1")], 0), ("65 pairs", [count(65)], 0), ("255 pairs", [count(255)], 0),
]
KEY, PEER = bytes(range(16)), bytes([6, 5, 4, 3, 2, 1, 1])
named = bytes([1, 3, 9, 0, 0x41])


def second(options=0x20, reports=2, sampling=5, kind=1, condition=named, peer=bytes(7), irk=bytes(16)):
    return [mon(0, sampling=sampling, kind=kind, condition=condition), added(0, options, reports, peer, irk)]


def sifting(**last):
    """A pair of a monitor that filters duplicates."""
    return second(reports=3, sampling=0) + [count(1), watch(0, **last)]


vectors += [  # document 02, T-13
    ("version 2", second(), 1), ("no options", second(options=0), 0), ("reserved options alone", second(options=0xC0), 0),
    ("reserved options beside one", second(options=0xE0), 1), ("options 1F", second(options=0x1F, irk=KEY), 1),
    ("bit 1 without a key", second(options=2), 0), ("bit 3 without a key", second(options=0x28), 0),
    ("bit 1 with a key", second(options=2, irk=KEY), 1), ("bit 3 with a key", second(options=8, irk=bytes(15) + b"\1"), 1),
    ("bits 0, 2 and 4 without a key", second(options=0x15), 1),
    ("type 4, bit 5", second(kind=4, condition=PEER[6:] + PEER[:6]), 1), ("type 4, bit 4", second(0x10, kind=4, condition=PEER[6:] + PEER[:6]), 1),
    ("type 4, bit 0", second(options=0x21, kind=4, condition=PEER[6:] + PEER[:6]), 0), ("type 3, bit 5", second(kind=3, condition=KEY), 1),
    ("type 3, bit 3", second(options=0x28, kind=3, condition=KEY, irk=KEY), 0), ("type 3, bit 2", second(options=4, kind=3, condition=KEY), 0),
    ("type 2, all bits", second(options=0x3F, kind=2, condition=b"\1\x0A\x18", irk=KEY), 1),
    ("duplicates, sampling 0", second(reports=3, sampling=0), 1), ("duplicates, sampling 5", second(reports=3), 0),
    ("duplicates, sampling 255", second(reports=1, sampling=255), 0), ("reserved reports", second(reports=0xFE), 1),
    ("no reports", second(reports=0), 1), ("peer type 1", second(peer=PEER), 1), ("peer type 2", second(peer=PEER[:6] + b"\2"), 0),
    ("a malformed condition", second(condition=named[:4]), 0), ("in an empty row", [added(0)], 0),
    ("a key alone", second(options=0, reports=0, irk=KEY), 0), ("an address alone", second(options=0, reports=0, peer=PEER), 0),
    ("reports alone", second(options=0, reports=6), 0),
    ("no packet kept", sifting(event=0xFF), 1), ("none, with an octet", sifting(event=0xFF, data=b"\1"), 0),
    ("a packet kept", sifting(event=3, data=bytes(range(31))), 1), ("an empty packet kept", sifting(event=0), 1),
    ("event type 4 kept", sifting(event=4), 0), ("event type 254 kept", sifting(event=254), 0), ("a sum", sifting(event=1, total=1), 0),
    ("a packet counted", [position(9)] + sifting(event=1, packets=1), 0),
    ("no packet, duplicates not filtered", second(sampling=0) + [count(1), watch(0, event=0xFF)], 0),
    ("none in a window", [position(9)] + second() + [count(1), watch(0, event=0xFF, packets=1)], 0),
    ("another's bit", second(sampling=0) + [mon(1, sampling=0, kind=1, condition=named), added(1, reports=3), count(1), watch(0, event=1)], 0),
]
everything = [position(9)] + [mon(h, kind=1, condition=pattern[:1] + bytes([62]) + pattern[2:64]) for h in range(16)] + [added(h, 0x21, 2, PEER, KEY) for h in range(16)] + [count(64)] \
    + [watch(i, handle=i % 16, address=i.to_bytes(6, "little").hex(), packets=3, total=-99, data=bytes(31)) for i in range(64)]
vectors += [("16 monitors, 64 pairs", everything, 1),
            ("the last pair again", everything + [(PAIRS + PAIR * 63, bytes([14]) + bytes([0]) + (62).to_bytes(6, "little"))], 0)]


def block(parts):
    b = fresh()
    for at, octets in parts:
        b[at:at + len(octets)] = octets
    assert len(b) == SIZE
    b[3] = 0
    return bytes(b)


if sys.argv[1:] == ["full"]:
    print(text(everything, 65535))
elif sys.argv[1:] == ["fresh"]:
    print(text([], 65535))
else:
    for name, parts, answer in vectors:
        assert sound(block(parts)) == bool(answer), name
    open("stdin", "w").write("".join(text(parts) + "\n" for _, parts, _ in vectors))
    open("stdout", "w").write("".join("%d\n" % answer for _, _, answer in vectors))
