#!/usr/bin/env python3
"""Makes the vectors of the program (stdin) and the answers that it must give (stdout).

Run it in this directory: python3 vectors.py
Every encrypted block is by OpenSSL:

    printf BLOCK | xxd -r -p | openssl enc -aes-128-ecb -nopad -K KEY | xxd -p

Those of FIPS 197 and the sample of the Core Specification are written here as the documents print them and compared
with OpenSSL's. Whether an address resolves is said by hand for each case and worked out again from OpenSSL's blocks;
nothing is written where the two differ. The random keys and blocks are those of the seed below.
"""
import random
import subprocess

SEED = 197
BLOCKS = 200
octets = bytes.fromhex


def encrypted(key, block):
    command = ["openssl", "enc", "-aes-128-ecb", "-nopad", "-K", key.hex()]
    return subprocess.run(command, input=block, capture_output=True, check=True).stdout


def ah(key, prand):  # the most significant octet first, as in the Core Specification
    return encrypted(key, bytes(13) + prand)[13:]


def changed(text, bit):  # bit 0 is the least significant one of the last octet
    n = int.from_bytes(text, "big") ^ (1 << bit)
    return n.to_bytes(len(text), "big")


lines, answers = [], []


def note(text):
    lines.append("# " + text)


def block(key, plain, answer=None):
    cipher = encrypted(key, plain)
    assert answer is None or cipher == answer
    lines.append((b"\0" + key + plain).hex().upper())
    answers.append(cipher.hex().upper())


def resolution(key, prand, hashed, answer):
    right = len(key) == 16 and len(prand + hashed) == 6 and prand[0] >> 6 == 1 and ah(key, prand) == hashed
    assert right == answer, (key.hex(), prand.hex(), hashed.hex())
    address = prand + hashed
    lines.append((bytes([1, len(key)]) + key[::-1] + address[::-1]).hex().upper())
    answers.append("01" if answer else "00")


rng = random.Random(SEED)
note("FIPS 197, appendix B")
block(
    octets("2b7e151628aed2a6abf7158809cf4f3c"),
    octets("3243f6a8885a308d313198a2e0370734"),
    octets("3925841d02dc09fbdc118597196a0b32"),
)
note("FIPS 197, appendix C.1")
block(
    octets("000102030405060708090a0b0c0d0e0f"),
    octets("00112233445566778899aabbccddeeff"),
    octets("69c4e0d86a7b0430d8cdb78070b4c55a"),
)
note("zeros and ones")
for key in (bytes(16), b"\xff" * 16):
    for plain in (bytes(16), b"\xff" * 16):
        block(key, plain)
note("random keys and blocks")
for _ in range(BLOCKS):
    block(rng.randbytes(16), rng.randbytes(16))

IRK, PRAND, HASH = octets("ec0234a357c8ad05341010a60a397d9b"), octets("708194"), octets("0dfbaa")
note("Core Specification, Vol 3, Part H, appendix D.7: the sample of ah")
resolution(IRK, PRAND, HASH, True)
note("the key in the wrong octet order, and an address whose hash is by that order")
resolution(IRK[::-1], PRAND, HASH, False)
resolution(IRK[::-1], PRAND, ah(IRK[::-1], PRAND), True)
note("the hash in the wrong octet order; the hash from the other end; prand at the other end of the block")
resolution(IRK, PRAND, HASH[::-1], False)
resolution(IRK, PRAND, encrypted(IRK, bytes(13) + PRAND)[:3], False)
resolution(IRK, PRAND, encrypted(IRK, PRAND + bytes(13))[13:], False)
note("each bit of the hash, of prand below its top two bits, and of the key changed")
for bit in range(24):
    resolution(IRK, PRAND, changed(HASH, bit), False)
for bit in range(22):
    resolution(IRK, changed(PRAND, bit), HASH, False)
for bit in range(128):
    resolution(changed(IRK, bit), PRAND, HASH, False)
note("keys of other lengths, addresses of other lengths")
for key in (b"", IRK[1:], IRK[:15], IRK + b"\0", b"\0" + IRK):
    resolution(key, PRAND, HASH, False)
for prand, hashed in (
    (b"", b""),
    (PRAND, HASH[:2]),
    (PRAND, HASH[1:]),
    (PRAND, HASH + b"\0"),
    (b"\x40" + PRAND, HASH),
):
    resolution(IRK, prand, hashed, False)
note("top bits 00, 01, 10, 11, each with the hash that belongs to its prand; the first key is zeros")
for n in range(20):
    key = rng.randbytes(16) if n else bytes(16)
    rest = rng.randbytes(3)
    for top in range(4):
        prand = bytes([rest[0] % 64 + 64 * top]) + rest[1:]
        resolution(key, prand, ah(key, prand), top == 1)

with open("stdin", "w", encoding="ascii") as out:
    out.write("".join(line + "\n" for line in lines))
with open("stdout", "w", encoding="ascii") as out:
    out.write("".join(answer + "\n" for answer in answers))
print(len(answers), "vectors")
