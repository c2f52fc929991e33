"""Sessions made by hand: an image and a journal that grows frame by frame, and the octets of document 01's formats."""

OPCODE = bytes.fromhex("1EFC")


class Session:
    """A fresh image with a prefix, and a journal that grows frame by frame."""

    def __init__(self, name, prefix=b"MS", enable=None):
        self.name, self.number, self.lines, self.frames, self.stops = name, 0, [], 0, 0
        head = bytes(5) + OPCODE + bytes([len(prefix)]) + prefix
        self.image = line(b"\xA0" + head) + edition(prefix) + line(b"\xAF\x00\x00")
        if enable is not None:
            self.enable(enable)

    def frame(self, kind, payload=b""):
        self.number += 1
        self.octets(bytes([kind]) + self.number.to_bytes(4, "little") + payload)

    def octets(self, frame):
        self.frames += 1
        self.lines.append(line(frame))

    def command(self, params):
        self.frame(1, OPCODE + bytes([len(params)]) + params)

    def add(self, condition, interval=3, sampling=0, high=-60, low=-80):
        self.command(bytes([3, high & 255, low & 255, interval, sampling]) + condition)

    def second(self, condition, options=0x20, reports=2, sampling=0, interval=3, peer=bytes(7), irk=bytes(16)):
        """Version 2 of the monitor command; the peer is its address and its type."""
        head = bytes([15, -60 & 255, -80 & 255, interval, sampling, options, reports])
        self.command(head + peer + irk + condition)

    def cancel(self, handle):
        self.command(bytes([4, handle]))

    def enable(self, value):
        self.command(bytes([5, value]))

    def packet(self, device, rssi=-60, data=b"", event=0, kind=0):
        self.frame(2, bytes([event, kind]) + address(device) + bytes([len(data)]) + data + bytes([rssi & 255]))

    def scanned(self, device, rssi=-60, data=b"", scan=b"", event=0, kind=0):
        texts = bytes([len(data)]) + data + bytes([len(scan)]) + scan
        self.frame(4, bytes([event, kind]) + address(device) + texts + bytes([rssi & 255]))

    def ticks(self, count):
        for _ in range(count):
            self.frame(3)

    def texts(self):
        return self.image, "".join(self.lines).encode("ascii")


def line(octets):
    """A line of document 01."""
    return octets.hex().upper() + "\n"


def edition(prefix, number=0):
    """An A4 line (document 02, T-12)."""
    return line(b"\xA4" + number.to_bytes(4, "little") + bytes([len(prefix)]) + prefix)


def address(device):
    return bytes([device & 255, device >> 8, 3, 4, 5, 6])


def of_device(device, kind=0):
    """A condition of type 4."""
    return bytes([4, kind]) + address(device)


# A condition of type 1, and data that matches it: AD type 09, an 'A' at offset 0.
NAMED = bytes([1, 1, 3, 9, 0, 0x41])
SMALL = bytes([2, 9, 0x41])


# The Core Specification's sample of ah: the key and the address 70:81:94:0D:FB:AA, least octet first.
KEY = bytes.fromhex("EC0234A357C8AD05341010A60A397D9B")[::-1]
PRIVATE = bytes.fromhex("7081940DFBAA")[::-1]


def long_data(fill):
    """31 octets of data that match NAMED."""
    return bytes([30, 9, 0x41]) + bytes([fill]) * 28
