#!/usr/bin/env python3
"""Makes the sessions of the program (stdin) and what it must write (stdout): sessions.py REFERENCE, in this directory.

REFERENCE is the independent implementation, built (reference/README.md). Nothing here comes from the program itself.
The first sessions are made below and in edges.py, line by line from document 01's formats, one for each edge of
packets, ticks, images and conditions; what is to be written for them is what `REFERENCE replay` writes. The rest are
short ones of `REFERENCE cases`.
"""
import os
import subprocess
import sys
import tempfile

sys.dont_write_bytecode = True
from edges import characters, conditions, images
from made import KEY, NAMED, OPCODE, PRIVATE, SMALL, Session, address, edition, line, long_data, of_device
from second import filtered, options, seconds

PRIME = 2**54 - 33
ROOM = 65536
SEED, DRAWN, SHORT, TAKEN = 20, 2500, 1400, 874


def full():
    """All 64 pairs, by 4 monitors that take 16 devices each, then a 65th start that finds no room."""
    for filter_on in (0, 1):
        made = Session("64 pairs full, a 65th start refused room, filter %d" % filter_on, enable=filter_on or None)
        for _ in range(4):
            made.add(NAMED, interval=2, sampling=5)
        for device in range(16):
            made.packet(device, -50, SMALL)
        for device in (16, 17, 0):
            made.packet(device, -50, SMALL)
        made.cancel(2)
        for device in (17, 16, 18, 19, 20, 21, 22):
            made.packet(device, -50, SMALL)
        made.ticks(21)
        made.packet(40, -50, SMALL)
        yield made
    made = Session("62 pairs held, 16 monitors start at one packet and two find room", enable=1)
    made.add(NAMED, interval=1, sampling=255)
    for device in range(62):
        made.packet(device, -50, SMALL)
    for _ in range(15):
        made.add(NAMED, interval=60)
    made.packet(100, -50, SMALL)
    made.ticks(10)
    made.packet(100, -50, SMALL)
    yield made


def strongest():
    """A full table keeps the strongest (T-05): smaller ones displaced, the earlier of two, two by one packet, none at
    an equal RSSI; windows lost; a displaced device starts again; a pair of the same device displaced."""
    for filter_on in (0, 1):
        for sampling in (0, 2, 255):
            made = Session("a full table keeps the strongest, sampling %d, filter %d" % (sampling, filter_on),
                           enable=filter_on or None)
            made.add(NAMED, interval=60, sampling=sampling, high=-90, low=-100)
            made.add(bytes([2, 1, 0x0F, 0x18]), interval=60, sampling=sampling, high=-90, low=-100)
            both = SMALL + bytes([3, 3, 0x0F, 0x18])
            for device in range(30):
                made.packet(device, -50 - device % 3, both)
            for device in range(30, 34):
                made.packet(device, -50, both[3:])
            made.packet(40, -52, both)
            made.packet(40, -51, both)
            made.packet(2, -50, SMALL)
            made.packet(33, -70, both[3:])
            made.packet(33, -69, SMALL)
            made.packet(41, -69, both)
            made.packet(5, -100, both)
            made.packet(42, -90, SMALL)
            made.packet(42, -91, both)
            made.packet(43, -90, both)
            made.packet(5, -50, both)
            made.ticks(2)
            made.packet(44, 20, both)
            made.ticks(2)
            yield made


def sixteen():
    for filter_on in (0, 1):
        for prefix in (b"", bytes(range(32))):
            made = Session("16 monitors start at one packet, filter %d, prefix of %d octets" % (filter_on, len(prefix)),
                           prefix, enable=filter_on or None)
            for handle in range(16):
                made.add(NAMED if handle % 2 else of_device(9), sampling=255 if filter_on else 0)
            made.add(bytes([3]) + bytes(16))
            made.add(NAMED)
            made.packet(9, -60, long_data(7))
            made.packet(9, -60, long_data(8))
            made.ticks(31)
            yield made


def windows():
    for sampling in (1, 2, 3, 253, 254):
        for rssi in ((-60, -61), (-1, 0), (0, 1), (-127, 20), (20, 20)):
            made = Session("window of %d ticks, packets at %d and %d" % ((sampling,) + rssi), enable=1)
            made.add(of_device(1), interval=60, sampling=sampling)
            made.packet(1, -50, b"\x01\x02")
            made.ticks(sampling - 1)
            made.packet(1, rssi[0], SMALL, event=3)
            made.packet(1, rssi[1], b"\x05" * 5, event=1)
            made.ticks(2)
            made.packet(1, rssi[1])
            made.packet(1, rssi[0])
            made.packet(1, rssi[1], b"", event=2)
            made.ticks(2 * min(sampling, 130) + 1)
            yield made


def samplings():
    for sampling in (0, 1, 254, 255):
        for filter_on in (0, 1):
            made = Session("sampling %d, filter %d" % (sampling, filter_on), enable=filter_on or None)
            made.add(of_device(1), interval=2, sampling=sampling)
            for rssi in (-61, -60, -79, -80, -127, 20):
                made.packet(1, rssi, SMALL)
                made.packet(2, rssi, SMALL)
                made.packet(1, rssi, SMALL, kind=1)
                made.ticks(3)
            made.ticks(22)
            made.packet(1, -61, SMALL)
            made.packet(1, -60, SMALL)
            yield made


def equal():
    """High equal to low (T-01): a start at that value, packets there and one above, 10 ticks; low above high."""
    for shared in (-60, 20, -127):
        made = Session("high equal to low at %d" % shared, enable=1)
        made.add(of_device(1), interval=1, high=max(shared - 1, -127), low=max(shared, -126))
        made.add(of_device(1), interval=1, high=shared, low=shared)
        made.packet(1, max(shared - 1, -127))
        made.ticks(2)
        made.packet(1, shared, SMALL)
        made.ticks(9)
        made.packet(1, shared, SMALL)
        made.ticks(2)
        made.packet(1, shared)
        made.ticks(9)
        made.packet(1, min(shared + 1, 20), SMALL)
        made.ticks(9)
        made.packet(1, shared, SMALL)
        made.ticks(2)
        yield made


def switched():
    for first in (0, 1):
        for at in range(0, 5):
            name = "filter switched from %d inside a window, after %d ticks" % (first, at)
            made = Session(name, enable=first or None)
            made.add(of_device(1), interval=60, sampling=4)
            made.packet(1, -50)
            made.packet(1, -40, SMALL)
            made.ticks(at)
            made.packet(1, -41, b"\x00")
            made.enable(1 - first)
            made.packet(1, -43, b"\x01\x02")
            made.ticks(4)
            made.packet(1, -30)
            made.enable(first)
            made.ticks(9)
            yield made


def scans():
    """Packets of kind 04 (T-06): found in the advertisement, in the scan response, in both, in a later structure of
    either; a structure across the two texts; each text's own end; the empty scan response."""
    other, uuid = bytes([2, 9, 0x42]), bytes([3, 3, 0x0F, 0x18])
    texts = ((SMALL, b""), (b"", SMALL), (SMALL, other), (other, SMALL), (other + SMALL, other), (other, other + SMALL),
             (b"\x00" + SMALL, other), (b"\x00", SMALL), (b"\x09\x09", SMALL), (other, b"\x00" + SMALL),
             (SMALL[:2], SMALL[2:]), (SMALL[:1], SMALL[1:]), (uuid[:3], uuid[3:]), (uuid, b""), (other, other + uuid),
             (long_data(1), long_data(2)))
    for sampling in (0, 2, 255):
        for filter_on in (0, 1):
            made = Session("kind 04, sampling %d, filter %d" % (sampling, filter_on), enable=filter_on or None)
            made.add(NAMED, interval=2, sampling=sampling)
            made.add(bytes([2, 1, 0x0F, 0x18]), interval=1, sampling=sampling)
            for device, (data, scan) in enumerate(texts):
                made.scanned(device, -60 + device % 2, data, scan, event=2 * (device % 2))
            made.ticks(1)
            for device, (data, scan) in enumerate(texts):
                made.scanned(device, -79 - device % 2, data, scan, event=2 - 2 * (device % 2))
            made.ticks(20)
            yield made


def private():
    """A key (T-03): its address, and addresses that nearly are; keys that nearly are."""
    changed = [bytes(o ^ (1 << bit % 8 if i == bit // 8 else 0) for i, o in enumerate(PRIVATE)) for bit in range(48)]
    for kind in (0, 1):
        made = Session("a key, address type %d" % kind, enable=1)
        made.add(bytes([3]) + KEY, interval=2, sampling=5)
        made.add(bytes([3]) + KEY[::-1])
        made.add(bytes([3]) + KEY[:15] + bytes([KEY[15] ^ 1]))
        made.add(bytes([3]) + bytes([KEY[0] ^ 0x80]) + KEY[1:])
        for device in changed + [PRIVATE[::-1], PRIVATE, PRIVATE]:
            made.frame(2, bytes([3, kind]) + device + bytes([2, 1, 9, 0xC4]))
        made.ticks(21)
        yield made
    # one key twice, another between, other settings; then the first handle of the key cancelled, then both, then the key again
    made = Session("two monitors of one key", enable=1)
    for key in (KEY, KEY[::-1], KEY):
        made.add(bytes([3]) + key, high=-60 - 10 * made.number, sampling=made.number % 2)
    for handle in (None, 0, 2, 1, None):
        if handle is not None:
            made.cancel(handle)
        for rssi in (0xC4, 0xB0, 0xA6):
            made.frame(2, bytes([0, 1]) + PRIVATE + bytes([0, rssi]))
        made.ticks(2)
    made.add(bytes([3]) + KEY)
    made.frame(2, bytes([0, 1]) + PRIVATE + bytes([0, 0xC4]))
    yield made
    # sixteen monitors of one key: a start of each at one packet
    made = Session("sixteen monitors of one key", enable=1)
    for _ in range(16):
        made.add(bytes([3]) + KEY, interval=1)
    for device in (PRIVATE, changed[0], PRIVATE):
        made.frame(2, bytes([0, 1]) + device + bytes([0, 0xC4]))
    made.ticks(10)
    yield made


def ends():
    for sampling in (1, 2, 5, 9, 10, 11, 20):
        for filter_on in (0, 1):
            name = "a watch ends near a window's end: 10 ticks, windows of %d, filter %d" % (sampling, filter_on)
            made = Session(name, enable=filter_on or None)
            made.add(of_device(1), interval=1, sampling=sampling)
            made.packet(1, -50)
            made.packet(1, -80, SMALL)
            made.ticks(9)
            made.packet(1, -81, SMALL)
            made.ticks(1)
            made.packet(1, -59, SMALL)
            made.ticks(9)
            made.packet(1, -79, SMALL)
            made.ticks(11)
            yield made
    for filter_on in (0, 1):
        made = Session("several watches end at one tick, others between them go on, filter %d" % filter_on,
                       enable=filter_on or None)
        made.add(NAMED, interval=1, sampling=10)
        made.add(NAMED, interval=2, sampling=10)
        made.add(of_device(3), interval=1, sampling=0)
        for device in range(6):
            made.packet(device, -50, SMALL)
        made.ticks(4)
        for device in (1, 3):
            made.packet(device, -70, SMALL)
        made.ticks(6)
        made.packet(5, -60, SMALL)
        made.ticks(30)
        yield made


def longest():
    for sampling in (1, 2, 254):
        made = Session("the longest answer, 64 reports of 45 octets at one tick, windows of %d" % sampling, enable=1)
        for _ in range(16):
            made.add(NAMED, interval=60, sampling=sampling)
        for device in range(4):
            made.packet(device, -50, long_data(device))
        made.ticks(sampling - 1)
        for device in range(4):
            made.packet(device, -51, long_data(device + 16))
            made.packet(device, -52, long_data(device + 32))
        made.ticks(1)
        for device in range(4):
            made.packet(device, 20, long_data(device + 64))
        made.ticks(min(sampling, 3))
        made.enable(0)
        yield made


def in_full():
    """The session of document 01, and its 30th tick; a packet after 29 ticks at -79 and at -80."""
    for rssi in (None, -79, -80):
        made = Session("the session in full, after 29 ticks a packet at %s" % rssi)
        made.command(bytes.fromhex("03C4B003000400060504030201"))
        packet = bytes.fromhex("000006050403020100")
        made.frame(2, packet + b"\xC4")
        made.ticks(29)
        if rssi is not None:
            made.frame(2, packet + bytes([rssi & 255]))
        made.ticks(31)
        yield made


# Frames given after frame 3, each row with the refusal that document 01 gives them (0: executed).
REFUSED = (
    (1, "03 03000000", "03 00000000", "01 01000000 1EFC020501", "02 02000000", "03 03000000 00"),
    (2, "03 05000000", "03 FFFFFFFF", "03 05000000 00"),
    (4, "00 04000000", "05 04000000", "FF 04000000", "03 040000", "", "01 04000000 1EFCFF 05" + "00" * 255),
    (4, "05 03000000", "03 030000", "01 01000000 1EFCFF 05" + "00" * 255),
    (5, "03 04000000 00", "01 04000000", "01 04000000 1EFC", "01 04000000 1EFC00", "01 04000000 1EFC0105 00"),
    (5, "01 04000000 1EFC0205", "02 04000000", "02 04000000 0400010203040506 00 C4"),
    (5, "02 04000000 0002010203040506 00 C4", "02 04000000 0000010203040506 00 15"),
    (5, "02 04000000 0000010203040506 00 80", "02 04000000 0000010203040506 01 C4"),
    (5, "02 04000000 0000010203040506 20 " + "00" * 32 + " C4", "02 04000000 0000010203040506 00 C4 00"),
    (5, "02 04000000 0000010203040506 00 7F", "01 04000000 1FFC00", "01 04000000 1FFC0205"),
    (1, "04 03000000", "04 02000000 0100010203040506 00 00 C4"),
    (5, "04 04000000", "04 04000000 0100010203040506 00 00 C4", "04 04000000 0300010203040506 00 00 C4"),
    (5, "04 04000000 0002010203040506 00 00 C4", "04 04000000 0000010203040506 00 C4"),
    (5, "04 04000000 0000010203040506 20 " + "00" * 32 + " 00 C4", "04 04000000 0000010203040506 00 00 15"),
    (5, "04 04000000 0000010203040506 00 20 " + "00" * 32 + " C4", "04 04000000 0000010203040506 00 00 C4 00"),
    (0, "04 04000000 0200010203040506 1F " + "00" * 31 + " 1F " + "00" * 31 + " 81"),
    (0, "04 04000000 0001010203040506 0000 14"),
    (6, "01 04000000 1FFC0100", "01 04000000 1EFD020501", "01 04000000 000001FF"),
    (0, "03 04000000", "01 04000000 1EFCFF 05" + "00" * 254, "02 04000000 0301010203040506 00 14"),
    (0, "02 04000000 0000010203040506 1F " + "00" * 31 + " 81"),
)


def refused():
    """A frame that is refused, or not, among frames that are executed; replay skips 1 and stops at the others."""
    for number, *frames in REFUSED:
        for frame in frames:
            made = Session("refusal %d: %s" % (number, frame[:40]))
            made.add(NAMED, sampling=2)
            made.packet(7, -60, SMALL)
            made.ticks(1)
            made.octets(bytes.fromhex(frame))
            made.number += 0 if number else 1
            made.ticks(2)
            made.stops = number if number > 1 else 0
            yield made
    for name, text in (("lower case", "030400000a"), ("a blank", "03 04000000"), ("odd", "030400000")):
        made = Session("refusal 4: " + name)
        made.ticks(3)
        made.lines.append(text + "\n")
        made.ticks(1)
        made.stops = 4
        yield made
    made = Session("a last piece without LF is not read")
    made.ticks(3)
    made.lines.append("0304000000")
    yield made


def counted():
    """Windows that hold nearly as many packets as a count can: sums at both ends, the last frame numbers."""
    for below in (1, 2, 3):
        for each in (-127, 20, -60):
            made = Session("a window %d packets short of 4,294,967,295, each at %d" % (below, each))
            count = 2**32 - 1 - below
            pair = bytes(2) + address(1) + bytes(2) + bytes([3]) + count.to_bytes(4, "little")
            pair += (each * count).to_bytes(8, "little", signed=True) + bytes([each & 255, 0, 0])
            made.image = line(b"\xA0" + count.to_bytes(4, "little") + b"\x01" + OPCODE + b"\x00") + edition(b"")
            made.image += line(b"\xA1\x00\xC4\xB0\x3C\x04\x04\x07" + of_device(1)[1:]) + line(b"\xA3" + pair)
            made.image += line(b"\xAF\x01\x01")
            made.number = count
            for _ in range(max(1, below - 1)):
                made.packet(1, 20 if each == 20 else -127, SMALL)
            if below > 1:
                made.ticks(1)
            for seen in ("03FFFFFFFF", "0300000000", "0301000000"):
                made.octets(bytes.fromhex(seen))
            yield made


def digest(octets):
    value = 0
    for octet in octets:
        value = (value * 257 + octet + 1) % PRIME
    return value


def written(expected):
    """The program's line for what the independent implementation writes."""
    if expected == "10\n":
        return "10\n", 0
    answers, image, number = b"", "", 0
    for row in expected.splitlines():
        if len(row) < 3:
            number = int(row)
        elif row[:2] in ("A0", "A1", "A3", "A4", "A5", "AF"):
            image += row + "\n"
        else:
            answers += bytes.fromhex(row)
    octets = answers + image.encode("ascii")
    return "%014x %d %d\n" % (digest(octets), len(octets), number), len(answers)


def replay(reference, folder, image, journal):
    paths = [os.path.join(folder, name) for name in ("image", "journal")]
    for path, text in zip(paths, (image, journal)):
        with open(path, "wb") as file:
            file.write(text)
    done = subprocess.run([reference, "replay", *paths], capture_output=True, text=True, check=False)
    return done.stdout


def read(path):
    with open(path, "rb") as file:
        return file.read()


def main():
    reference, sessions, lines = sys.argv[1], [], []
    kinds = (in_full, full, strongest, sixteen, windows, samplings, equal, switched, scans, private, ends, longest)
    kinds += (counted, refused, seconds, options, filtered)
    with tempfile.TemporaryDirectory() as folder:
        for kind in kinds + (conditions, characters, images):
            for made in kind():
                image, journal = made.texts()
                image = image.encode("ascii")
                expected = replay(reference, folder, image, journal)
                text, answers = written(expected)
                assert text.split()[-1] == str(made.stops), (made.name, text)
                sessions.append((image, journal))
                lines.append(text)
                print(len(sessions), made.name, "(%d frames, %d octets)" % (made.frames, answers))
        subprocess.run([reference, "cases", folder, str(SEED), str(DRAWN)], check=True, stdout=subprocess.DEVNULL)
        total = len(sessions) + TAKEN
        for name in sorted(os.listdir(folder)):
            if not name.endswith(".expected") or len(sessions) == total:
                continue
            stem = os.path.join(folder, name[:-9])
            image, journal = read(stem + ".image"), read(stem + ".journal")
            if len(image) + len(journal) <= SHORT and not os.path.exists(stem + ".additions"):
                sessions.append((image, journal))
                lines.append(written(read(stem + ".expected").decode("ascii"))[0])
    print(len(sessions), "in all")
    assert all(len(image) <= 13163 and len(journal) <= ROOM for image, journal in sessions)
    with open("stdin", "wb") as file:
        for image, journal in sessions:
            file.write(b"%06d %06d\n" % (len(image), len(journal)) + image + journal)
    with open("stdout", "w", encoding="ascii") as file:
        file.writelines(lines)


main()
