"""seeds.py FOLDER: the fuzzer's first inputs, as harness.c reads them: the example noon, stored sessions and calls.

A session gives three inputs: its image and its journal as texts; both as octets, equal frames in a row once with their
count; and its first frames as a call each.
"""
import os
import sys

ROOT = os.path.dirname(os.path.dirname(os.path.dirname(os.path.abspath(__file__))))
BEGIN, SUBMIT, SUBMIT_LINE, WRITE_LINE, SAVE, RESTORE, RECORDS, SAVED, REPLAY, FRAMES, OVERWRITE, KEEP = range(12)
# Outputs of 2,880, 13,162 and 20,480 octets, by their place in harness.c's list.
ANSWER, IMAGE, LONG = range(3)
# Longer inputs are left out, but for those with the largest image.
LONGEST = 2500


def read(*names):
    with open(os.path.join(ROOT, *names), "rb") as file:
        return file.read()


def number(value, octets=2):
    return value.to_bytes(octets, "little")


def counted(octets, width=2):
    return number(len(octets), width) + octets


def call(which, places, room, rest=b""):
    return bytes([which, places, room]) + rest


def sessions():
    """The image and the journal of each stored session."""
    text, at = read("crates/sessions_run/stdin"), 0
    while at < len(text):
        image, journal = int(text[at:at + 6]), int(text[at + 7:at + 13])
        at += 14
        yield text[at:at + image], text[at + image:at + image + journal]
        at += image + journal


def text_of(records):
    return b"".join(record.hex().upper().encode("ascii") + b"\n" for record in records)


def octets(text):
    """The octets of a text's lines; nothing where one is not hexadecimal."""
    try:
        return [bytes.fromhex(line.decode("ascii")) for line in text.split(b"\n")[:-1]]
    except ValueError:
        return []


def rows(frames):
    """Frames without their numbers, equal ones in a row once: how often, and the frame."""
    found = []
    for frame in frames:
        frame = frame[:1] + bytes(4) + frame[5:]
        if found and found[-1][1] == frame and found[-1][0] < 256:
            found[-1][0] += 1
        else:
            found.append([1, frame])
    return found


def as_texts(image, journal, places):
    """The session's texts: restored, replayed and saved."""
    cut = number(len(journal) // 2)
    return (call(RESTORE, places, IMAGE, counted(image)) + call(REPLAY, places, LONG, cut + counted(journal)) +
            call(SAVE, places, IMAGE))


def restored(image, places):
    """An image restored from its records' octets."""
    records = octets(image)
    return call(RECORDS, places, IMAGE, number(len(records), 1) + b"".join(counted(record, 1) for record in records))


def as_frames(image, journal, places):
    """The session's octets: records restored, frames replayed in rows, saved and restored with an octet changed."""
    frames = rows(octets(journal))[:255]
    given = b"".join(number(times - 1, 1) + counted(frame) for times, frame in frames)
    return (restored(image, places) +
            call(FRAMES, places, LONG, number(len(journal) // 3) + b"\0" + number(len(frames), 1) + given + b"\0") +
            call(SAVE, places, IMAGE) + call(SAVED, places, IMAGE, b"\1" + number(25) + b"0"))


def as_calls(image, journal, places):
    """The session's records restored, then its first frames, one call each."""
    frames = [frame for frame in octets(journal)[:40] if len(frame) < 300]
    return restored(image, places) + b"".join(call(SUBMIT, places, ANSWER, b"\1" + counted(frame)) for frame in frames)


def full(pattern, sampling, packets, pairs):
    """16 monitors of version 2 with conditions of 64 octets, and so many pairs. With 64, and packets, the largest image."""
    condition = bytes([1, len(pattern) + 2, 0xFF, 0]) + pattern
    prefixes = [bytes([place] * 32) for place in range(32)]
    records = [bytes([0xA0]) + number(1000, 4) + b"\1\x1e\xfc" + counted(prefixes[20], 1)]
    records += [b"\xa4" + number(50 * place, 4) + counted(prefix, 1) for place, prefix in enumerate(prefixes)]
    for handle in range(16):
        added = bytes([0x21, 2]) + bytes([handle] * 6) + b"\1" + bytes(range(16))
        records.append(bytes([0xA5, handle, 0xC4, 0xB0, 60, sampling, 1]) + counted(condition, 1) + added)
    for pair in range(pairs):
        device = bytes([pair % 16, pair // 16 % 2, pair, 2, 3, 4, 5, 6])
        window = number(packets, 4) + (-60 * packets).to_bytes(8, "little", signed=True)
        data = counted(bytes([30, 0xFF]) + pattern[:29], 1) if packets else b"\0"
        records.append(b"\xa3" + device + number(599) + number(sampling - 1, 1) + window + b"\xc4\0" + data)
    records.append(b"\xaf" + bytes([16, pairs]))
    return text_of(records)


def watched():
    """16 monitors of sampling 0, each watching its own device, the filter on; and a packet of each device."""
    records = [bytes([0xA0]) + number(99, 4) + b"\1\x1e\xfc\0", b"\xa4" + bytes(5)]
    devices = [bytes([0, 9, 2, 3, 4, 5, handle]) for handle in range(16)]
    records += [bytes([0xA1, handle, 0xC4, 0xB0, 3, 0, 4, 7]) + device for handle, device in enumerate(devices)]
    records += [bytes([0xA3, handle]) + device + bytes(15) + b"\xc4\0\0" for handle, device in enumerate(devices)]
    records.append(b"\xaf\x10\x10")
    packets = [b"\2" + number(100 + i, 4) + b"\0" + device + b"\0\xc0" for i, device in enumerate(devices)]
    return text_of(records), text_of(packets)


def singles():
    """Calls by themselves: settings, lines, a damaged block, a state kept and taken back."""
    tick, packet = bytes([3, 1, 0, 0, 0]), bytes([2, 1, 0, 0, 0, 0, 0, 6, 5, 4, 3, 2, 1, 0, 0xC4])
    line = text_of([packet])
    for size in (0, 2, 32, 33):
        yield call(BEGIN, size, IMAGE, number(0xFC00 + size) + counted(bytes(range(size)), 1))
    yield call(BEGIN, 31, IMAGE, number(0xFBFF) + b"\0")
    scanned = bytes([4]) + packet[1:-2] + bytes([3, 2, 1, 6, 3, 2, 9, 0x41, 0xC4])
    others = (bytes([4]) + packet[1:], bytes([5]) + packet[1:], bytes([1]) + bytes(262), bytes([1]) + bytes(263))
    for frame in (tick, packet, scanned, scanned[:5] + b"\1" + scanned[6:], packet[:4]) + others:
        yield call(WRITE_LINE, 31, 7, counted(frame)) + call(WRITE_LINE, 0, 6, counted(frame))
        yield call(SUBMIT, 31, ANSWER, b"\7" + counted(frame)) + call(SUBMIT, 0, 9, b"\7" + counted(frame))
    for text in (line, line.lower(), line[:-1], line[:-1] + b"\r\n", line[1:], b"\n"):
        yield call(SUBMIT_LINE, 31, ANSWER, counted(text)) + call(SUBMIT_LINE, 0, ANSWER, counted(text))
    monitor = bytes([0, 0xC4, 0xB0, 3, 0, 4, 7])
    blocks = (0, b"\xff\xff\xff\xfe"), (4, b"\2"), (40, monitor), (5224, b"\1"), (5224, b"A"), (5225, b"\1"), (5801, b"\1"), (5802, b"\1"), (6986, b"\0")
    for at, put in blocks:
        damaged = call(OVERWRITE, 0, 0, number(at) + counted(put, 1))
        yield (call(KEEP, 0, 0) + damaged + call(SUBMIT, 31, ANSWER, b"\1" + counted(tick)) + call(SAVE, 0, IMAGE) +
               call(KEEP, 32, 0) + call(SUBMIT, 0, ANSWER, b"\1" + counted(tick)))


def inputs():
    noon = read("examples/noon/image"), read("examples/noon/journal")
    for i, (image, journal) in enumerate([noon, watched()] + list(sessions())):
        made = [form(image, journal, 31 * ((i + j) % 2)) for j, form in enumerate((as_texts, as_frames, as_calls))]
        yield from (one for one in made if len(one) <= LONGEST)
    for packets, pairs in (0, 64), (9, 64), (0, 65):
        journal = b"03E9030000\n03EA030000\n"
        image = full(bytes(range(60)), 2, packets, pairs)
        yield as_texts(image, journal, 31)
        yield as_frames(image, journal, 0)
    yield from singles()


def main():
    os.makedirs(sys.argv[1], exist_ok=True)
    for i, octets_of_one in enumerate(inputs()):
        with open(os.path.join(sys.argv[1], f"{i:05}"), "wb") as file:
            file.write(octets_of_one)


main()
