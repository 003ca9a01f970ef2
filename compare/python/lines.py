"""lines.py KIND SIZE: writes SIZE bytes or somewhat more of sound messages as the line carries them. KIND is poke (1,024 bytes
each, poll set), other (1,000 bytes of data to another address), ping, or mixed (PING, POKE, PEEK, CRC and another address)."""

import random
import sys

FRAM = 0x20040000
TABLE = []
for entry in range(256):
    for _ in range(8):
        entry = entry >> 1 ^ (0x8408 if entry & 1 else 0)
    TABLE.append(entry)


def packed(message):
    total = 0xFFFF
    for byte in message:
        total = total >> 8 ^ TABLE[(total ^ byte) & 0xFF]
    body = (message + total.to_bytes(2, "little")).replace(b"\xdb", b"\xdb\xdd").replace(b"\xc0", b"\xdb\xdc")
    return b"\xc0" + body + b"\xc0"


def little(number, size=4):
    return number.to_bytes(size, "little")


def message(kind, r):
    n = r.randrange(1, 1025)
    at = FRAM + r.randrange(0, 65536 - 1024)
    if kind == "poke":
        return b"\x61\x11\x83" + little(at) + r.randbytes(1024)
    if kind == "other":
        return b"\x62\x11\x80" + r.randbytes(1000)
    if kind == "ping":
        return b"\x61\x11\x80"
    return r.choice(
        [
            b"\x61\x11\x80",
            b"\x61\x11\x83" + little(at) + r.randbytes(n),
            b"\x61\x11\x82" + little(at) + little(n, 2),
            b"\x61\x11\x86" + little(FRAM) + little(at),
            b"\x62\x11\x80" + r.randbytes(n),
        ]
    )


seeded = random.Random(1)
part = b"".join(packed(message(sys.argv[1], seeded)) for _ in range(300))
sys.stdout.buffer.write(part * -(-int(sys.argv[2]) // len(part)))
