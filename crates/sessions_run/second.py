"""Sessions made by hand for monitors of version 2 (document 02, T-13): what the command takes, its options, reports,
duplicates."""
from made import KEY, NAMED, PRIVATE, SMALL, Session, address, of_device

# What 0x0F is given beside NAMED: options, report filter, sampling, whether there is an IRK.
SECONDS = (
    (0x00, 2, 0, 0), (0x40, 2, 0, 0), (0x01, 2, 0, 0), (0x02, 2, 0, 0), (0x02, 2, 0, 1), (0x08, 2, 0, 0),
    (0x08, 2, 0, 1), (0x04, 2, 0, 0), (0x10, 2, 0, 0), (0x20, 3, 0, 0), (0x20, 3, 1, 0), (0x20, 1, 255, 0),
    (0x3F, 0xFF, 0, 1),
)


def seconds():
    """Version 2 (T-13): what it takes and refuses, with room and with 16 monitors live; its conditions; peer types."""
    for live in (0, 16):
        made = Session("version 2, %d monitors live" % live)
        for _ in range(live):
            made.add(NAMED)
        for options, reports, sampling, key in SECONDS:
            irk = KEY if key else bytes(16)
            made.second(NAMED, options, reports, sampling, peer=address(1) + b"\x00", irk=irk)
        for condition in (bytes([3]) + KEY, of_device(1), bytes([3]), bytes([5]), b"\x01\x00"):
            for options in (0x20, 0x21):
                made.second(condition, options)
        for kind in (1, 2):
            made.second(NAMED, peer=address(1) + bytes([kind]))
        made.command(bytes([15]) + bytes(29))
        made.command(b"\x00")
        made.packet(1, -60, SMALL)
        made.ticks(1)
        yield made


def options():
    """Version 2: each option bit against the peer, its address with the other type, its IRK, another, no condition."""
    for options in (0x01, 0x02, 0x03, 0x04, 0x08, 0x10, 0x1C, 0x20, 0x21, 0x41, 0xE2):
        made = Session("version 2, options %02X" % options, enable=1)
        made.second(NAMED, options, sampling=255, peer=address(1) + b"\x00", irk=KEY, interval=1)
        for event in (0, 1):
            for kind in (0, 1):
                made.packet(1, -60, SMALL, event, kind)
                made.packet(1, -60, b"", event, kind)
                made.packet(2, -60, SMALL, event, kind)
                made.frame(2, bytes([event, kind]) + PRIVATE + bytes([3]) + SMALL + b"\xC4")
                made.frame(2, bytes([event, kind]) + PRIVATE + b"\x00\xC4")
            made.ticks(10)
        yield made


def filtered():
    """Version 2: the report filter at starts, under watch, in windows; duplicates, filter on and off, after a stop."""
    for reports in (0x00, 0x01, 0x02, 0x03, 0x04, 0x08, 0x09, 0x0A, 0x0B, 0xF7):
        for sampling in (0, 2) if reports % 2 == 0 else (0,):
            made = Session("version 2, report filter %02X, sampling %d" % (reports, sampling), enable=1)
            made.second(NAMED, 0x20, reports, sampling, interval=1)
            for device in (1, 2):
                for event in (0, 0, 1, 1, 0, 3):
                    made.packet(device, -60 - device, SMALL, event)
                made.packet(device, -60, SMALL)
                made.packet(device, -90, SMALL)
                made.packet(device, -90, SMALL + b"\x00")
                made.scanned(device, -70, SMALL + b"\x00", b"\x01\x09")
                made.scanned(device, -70, SMALL, SMALL)
                made.packet(device, -60, b"")
                made.packet(device, -60, SMALL)
                made.ticks(2)
            made.enable(0)
            for event in (1, 1, 0, 0):
                made.packet(1, -60, SMALL, event)
            made.enable(1)
            made.packet(1, -60, SMALL)
            made.packet(1, -60, SMALL, 1)
            made.add(NAMED, interval=1)
            made.packet(1, -60, SMALL, 1)
            made.packet(1, -60, SMALL, 1)
            made.ticks(10)
            made.packet(1, -60, SMALL, 1)
            made.packet(1, -60, SMALL, 1)
            yield made
