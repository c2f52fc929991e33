"""Sessions made by hand for both sides of the edges of conditions, of a line's characters and of images (document 01,
Conditions, Lines, The image)."""
from made import KEY, NAMED, OPCODE, SMALL, Session, address, edition, line, long_data, of_device

PATTERN = NAMED[2:]

# Conditions with their types, each the first octet: those that are refused, and one of each type that is not.
MALFORMED = (
    bytes([1]), bytes([1, 0]), bytes([1, 0]) + PATTERN, bytes([1, 1]) + PATTERN + PATTERN, bytes([1, 2]) + PATTERN,
    bytes([1, 1, 2, 9, 0]), bytes([1, 1, 4, 9, 0, 0x41]), bytes([2]), bytes([2, 1, 0x0F]), bytes([2, 4, 0x0F, 0x18]),
    bytes([3]), bytes([3]) + bytes(15), bytes([3]) + bytes(17),
    bytes([4]), bytes([4, 2]) + address(1), bytes([4, 0]) + address(1)[:5], bytes([4, 0]) + address(1) + b"\x00",
)
FORMED = (bytes([1, 2]) + PATTERN + PATTERN, bytes([2, 1, 0x0F, 0x18]), bytes([3]) + KEY, bytes([4, 1]) + address(1))


def conditions():
    """Every malformed condition in a command, then those that are well formed."""
    made = Session("malformed conditions, and well formed ones")
    for condition in MALFORMED + FORMED:
        made.add(condition)
    made.packet(1, -60, SMALL + bytes([3, 3, 0x0F, 0x18]), kind=1)
    made.ticks(30)
    yield made


def characters():
    """A line with a character beside those of hexadecimal digits."""
    for letter in "/:@G":
        made = Session("refusal 4: the character " + letter)
        made.ticks(3)
        made.lines.append("03040000" + letter + "0\n")
        made.stops = 4
        yield made


def head(filter_on=1, opcode=OPCODE, prefix=b"MS", position=9, editions=None):
    """An A0 line, and the A4 lines of the editions, the prefix's own if none are given."""
    settings = opcode + bytes([len(prefix)]) + prefix
    first = line(b"\xA0" + position.to_bytes(4, "little") + bytes([filter_on]) + settings)
    return first + (edition(prefix) if editions is None else "".join(editions))


def monitor(handle=0, high=-60, low=-80, interval=60, sampling=4, condition=of_device(1), length=None):
    """An A1 line. A length that is given stands for that of the condition, which then has 64 octets."""
    octets = condition[1:] if length is None else condition[1:].ljust(64, b"\x00")[:64]
    length = len(octets) if length is None else length
    return line(bytes([0xA1, handle, high & 255, low & 255, interval, sampling, condition[0], length]) + octets)


def second(options=0x20, reports=2, peer_type=0, irk=bytes(16), sampling=0, condition=NAMED, handle=0):
    """An A5 line."""
    octets = condition[1:]
    head_of = bytes([0xA5, handle, -60 & 255, -80 & 255, 60, sampling, condition[0], len(octets)])
    return line(head_of + octets + bytes([options, reports]) + address(1) + bytes([peer_type]) + irk)


def pair(handle=0, kind=0, device=1, silent=0, ticks=0, packets=0, total=0, event=0, data=b"", length=None, kept=-60):
    """An A3 line. A length that is given stands for that of the data."""
    length = len(data) if length is None else length
    window = bytes([ticks]) + packets.to_bytes(4, "little") + total.to_bytes(8, "little", signed=True)
    return line(bytes([0xA3, handle, kind]) + address(device) + silent.to_bytes(2, "little") + window
                + bytes([kept & 255, event, length]) + data)


def end(monitors=1, pairs=1):
    return line(bytes([0xAF, monitors, pairs]))


def rising(count, prefix, step=1):
    """A4 lines: so many editions of one prefix, from 0, 1 .. on."""
    return [edition(prefix, step * i) for i in range(count)]


def longest_image():
    """The image of 13,162 characters."""
    condition = bytes([1, 1, 62, 9, 0]) + b"A" * 60
    text = head(prefix=bytes(range(32)), editions=rising(32, bytes(range(32))))
    text += "".join(second(condition=condition, sampling=4, handle=handle) for handle in range(16))
    for i in range(64):
        text += pair(i % 16, device=i // 16, ticks=3, packets=1, total=-50, data=long_data(i))
    return text + end(16, 64)


# Of each image what it shows, its text, and whether it is one of a sound state.
IMAGES = (
    ("filter 1", head(1) + monitor() + pair() + end(), True),
    ("filter 2", head(2) + monitor() + pair() + end(), False),
    ("prefix of 32", head(prefix=bytes(32)) + end(0, 0), True),
    ("prefix of 33", head(prefix=bytes(33)) + end(0, 0), False),
    ("opcode 0xFBFF", head(opcode=b"\xFF\xFB") + end(0, 0), False),
    ("high 20", head() + monitor(high=20) + pair() + end(), True),
    ("high 21", head() + monitor(high=21) + pair() + end(), False),
    ("high -128", head() + monitor(high=-128, low=-127) + pair() + end(), False),
    ("low -128", head() + monitor(low=-128) + pair() + end(), False),
    ("high equal to low", head() + monitor(high=-80) + pair() + end(), True),
    ("high equal to low at 20", head() + monitor(high=20, low=20) + pair() + end(), True),
    ("high equal to low at -127", head() + monitor(high=-127, low=-127) + pair() + end(), True),
    ("low one above high", head() + monitor(high=-81) + pair() + end(), False),
    ("interval 0", head() + monitor(interval=0) + end(1, 0), False),
    ("interval 61", head() + monitor(interval=61) + pair() + end(), False),
    ("a condition of type 0", head() + monitor(condition=bytes([0])) + end(1, 0), False),
    ("a key of 15 octets", head() + monitor(condition=bytes([3]) + bytes(15)) + end(1, 0), False),
    ("a key of 16 octets", head() + monitor(condition=bytes([3]) + bytes(16)) + end(1, 0), True),
    ("a key of 17 octets", head() + monitor(condition=bytes([3]) + bytes(17)) + end(1, 0), False),
    ("a condition of type 5", head() + monitor(condition=bytes([5]) + bytes(7)) + end(1, 0), False),
    ("a malformed condition", head() + monitor(condition=bytes([1, 0])) + end(1, 0), False),
    ("condition length 65", head() + monitor(condition=bytes([1, 1, 62, 9]), length=65) + end(1, 0), False),
    ("handle 15", head() + monitor(15) + pair(15) + end(), True),
    ("handle 16", head() + monitor(16) + pair(16) + end(), False),
    ("a pair of handle 16", head() + monitor() + pair(16) + end(), False),
    ("a pair of a handle not live", head() + monitor() + pair(1) + end(), False),
    ("a pair twice", head() + monitor() + pair() + pair(silent=1) + end(1, 2), False),
    ("address type 1", head() + monitor() + pair(kind=1) + end(), True),
    ("address type 2", head() + monitor() + pair(kind=2) + end(), False),
    ("599 ticks of 600", head() + monitor() + pair(silent=599) + end(), True),
    ("600 ticks of 600", head() + monitor() + pair(silent=600) + end(), False),
    ("3 ticks of 4 in a window", head() + monitor() + pair(ticks=3) + end(), True),
    ("4 ticks of 4 in a window", head() + monitor() + pair(ticks=4) + end(), False),
    ("4 ticks of 4 in a window with a packet", head() + monitor() + pair(ticks=4, packets=1, total=-50) + end(), False),
    ("sampling 0 and a tick", head() + monitor(sampling=0) + pair(ticks=1) + end(), False),
    ("sampling 255 and a tick", head() + monitor(sampling=255) + pair(ticks=1) + end(), False),
    ("sampling 255 and a packet", head() + monitor(sampling=255) + pair(packets=1) + end(), False),
    ("9 packets at position 9", head() + monitor() + pair(packets=9, total=-450) + end(), True),
    ("10 packets at position 9", head() + monitor() + pair(packets=10, total=-500) + end(), False),
    ("a sum of 21", head() + monitor() + pair(packets=1, total=21) + end(), False),
    ("a sum of -128", head() + monitor() + pair(packets=1, total=-128) + end(), False),
    ("kept RSSI -127", head() + monitor() + pair(kept=-127) + end(), True),
    ("kept RSSI 20", head() + monitor() + pair(kept=20) + end(), True),
    ("kept RSSI -128", head() + monitor() + pair(kept=-128) + end(), False),
    ("kept RSSI 21", head() + monitor() + pair(kept=21) + end(), False),
    ("an A2 line", head() + monitor() + line(b"\xA2\x00\x00" + address(1) + bytes(17)) + end(), False),
    ("version 2", head() + second() + pair() + end(), True),
    ("version 2 between others", head() + monitor() + second(handle=4) + monitor(9) + pair(4) + end(3, 1), True),
    ("version 2 out of order", head() + second(handle=4) + monitor() + end(2, 0), False),
    ("options 0", head() + second(options=0) + pair() + end(), False),
    ("all added octets 0", head() + line(bytes.fromhex("A500C4B03C0001050103090041") + bytes(25)) + end(1, 0), False),
    ("options with reserved bits alone", head() + second(options=0xC0) + pair() + end(), False),
    ("options with reserved bits", head() + second(options=0xE0) + pair() + end(), True),
    ("a zero IRK", head() + second(options=0x22) + pair() + end(), False),
    ("an IRK", head() + second(options=0x22, irk=KEY) + pair() + end(), True),
    ("an address beside the peer", head() + second(options=0x21, condition=of_device(1)) + pair() + end(), False),
    ("an address without the peer", head() + second(options=0x30, condition=of_device(1)) + pair() + end(), True),
    ("peer address type 2", head() + second(peer_type=2) + pair() + end(), False),
    ("duplicates and sampling", head() + second(reports=1, sampling=1) + end(1, 0), False),
    ("duplicates, no packet", head() + second(reports=3) + pair(event=255) + end(), True),
    ("duplicates, no packet with data", head() + second(reports=3) + pair(event=255, data=SMALL) + end(), False),
    ("duplicates, a packet", head() + second(reports=3) + pair(event=3, data=SMALL) + end(), True),
    ("duplicates, event type 4", head() + second(reports=3) + pair(event=4, data=SMALL) + end(), False),
    ("no duplicates, event type 255", head() + second(reports=2) + pair(event=255) + end(), False),
    ("no duplicates, a packet", head() + second(reports=2) + pair(event=3, data=SMALL) + end(), False),
    ("event type 3", head() + monitor() + pair(packets=1, event=3) + end(), True),
    ("event type 4", head() + monitor() + pair(packets=1, event=4) + end(), False),
    ("no packets, a sum", head() + monitor() + pair(total=1) + end(), False),
    ("no packets, an event type", head() + monitor() + pair(event=1) + end(), False),
    ("no packets, data", head() + monitor() + pair(data=b"\x00") + end(), False),
    ("data of 31", head() + monitor() + pair(packets=1, data=long_data(1)) + end(), True),
    ("data length 32", head() + monitor() + pair(packets=1, data=long_data(1), length=32) + end(), False),
    ("64 pairs", head() + monitor() + "".join(pair(device=i) for i in range(64)) + end(1, 64), True),
    ("65 pairs", head() + monitor() + "".join(pair(device=i) for i in range(65)) + end(1, 65), False),
    ("no edition", head(editions=[]) + end(0, 0), False),
    ("the first edition from 1 on", head(editions=[edition(b"MS", 1)]) + end(0, 0), False),
    ("the prefix of A0 is not that of its edition", head(editions=[edition(b"MT")]) + end(0, 0), False),
    ("an edition from the position on", head(prefix=b"B", editions=[edition(b"A"), edition(b"B", 9)]) + end(0, 0), True),
    ("an edition from the next frame on", head(prefix=b"A", editions=[edition(b"A"), edition(b"B", 10)]) + end(0, 0), True),
    ("A0 ahead of its position", head(prefix=b"B", editions=[edition(b"A"), edition(b"B", 10)]) + end(0, 0), False),
    ("two editions from one number", head(editions=[edition(b"MS"), edition(b"MS", 4), edition(b"MS", 4)]) + end(0, 0), False),
    ("an edition of 32", head(prefix=bytes(32), editions=[edition(b""), edition(bytes(32), 1)]) + end(0, 0), True),
    ("an edition of 33", head(editions=[edition(b"MS"), edition(bytes(33), 10)]) + end(0, 0), False),
    ("32 editions", head(editions=rising(32, b"MS", 3)) + monitor() + end(1, 0), True),
    ("33 editions", head(editions=rising(33, b"MS", 3)) + monitor() + end(1, 0), False),
    ("an edition behind a monitor", head() + monitor() + edition(b"MS", 10) + end(1, 0), False),
    ("three editions, used in turn", head(prefix=b"", editions=[edition(b""), edition(b"A", 10), edition(b"BC", 12)])
     + monitor(interval=1, sampling=0) + end(1, 0), True),
    ("the longest image", longest_image(), True),
    ("one character more than the longest image", longest_image() + "\n", False),
)


def images():
    """An image at an edge of "Sound", with a journal that goes on from it."""
    for name, text, sound in IMAGES:
        made = Session("an image: " + name)
        made.image, made.number, made.stops = text, 9, 0 if sound else 10
        made.packet(1, -50, SMALL)
        made.ticks(4)
        yield made
