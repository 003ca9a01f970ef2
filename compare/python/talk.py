"""talk.py PROGRAM WORDS..: puts the wheel on a pseudo terminal by socat and speaks to it as to a serial port: a ping; in user FRAM
and in bootloader FRAM a POKE across a block edge, a PEEK of it and the CRC of a range, which is worked out here bit by bit; a range
over the border of the two; bootloader FRAM locked; and writes over read-only bytes of EDAC memory."""

import os
import shlex
import subprocess
import sys
import tempfile
import time

import serial

from messages import APPLICATION, BOOTLOADER_FRAM, FEND, USER_FRAM, crc, line, little, unpacked
from messages import CRC, DIAGNOSTIC, INIT, PEEK, PING, POKE, READ_EDAC, READ_FILE, WRITE_EDAC, WRITE_FILE

WHEEL, HOST = 0x61, 0x11  # strap 1, answered on port 0
LOCK = 0xDEADBEEF
FRAM_STATUS, UNLOCKED, LOCKED = 0x06, 0x40, 0xCC


def ask(port, code, data, ack=0x20):
    """Sends a command with the poll bit, and gives the data of the ACK that comes, or of the NACK where the bit of one is clear."""
    port.write(line(WHEEL, HOST, 0x80 | code, data))
    assert port.read(1) == bytes([FEND]), "no reply"
    run = port.read_until(bytes([FEND]))
    assert run.endswith(bytes([FEND])), "a reply that does not end"
    reply = unpacked(run[:-1])
    assert crc(reply[:-2]) == int.from_bytes(reply[-2:], "little"), "a reply with a bad CRC"
    assert reply[:3] == bytes([HOST, WHEEL, 0x80 | ack | code]), reply[:3].hex()
    return reply[3:-2]


def held(port, start, fram, at, size):
    """An FRAM that starts at an address must hold these bytes: by a PEEK of some and by the CRC of five ranges."""
    peeked = ask(port, PEEK, little(start + at - 2, 4) + little(size + 4, 2))
    assert peeked == little(start + at - 2, 4) + fram[at - 2 : at + size + 2]
    for first, last in [(0x0000, 0xFFFF), (0x01FF, 0x0200), (0x0103, 0x0BCD), (0x0200, 0x02FF), (0x0210, 0x0210)]:
        asked = little(start + first, 4) + little(start + last, 4)
        assert ask(port, CRC, asked) == asked + little(crc(fram[first : last + 1]), 2), hex(start + first)


def poke(port, start, at, poked):
    command = little(start + at, 4) + poked
    assert ask(port, POKE, command) == command


def status(port):
    """The low byte of the FRAM status; its other bytes are 0 in this wheel."""
    shown = ask(port, DIAGNOSTIC, bytes([FRAM_STATUS]))
    assert shown[:1] == bytes([FRAM_STATUS]) and shown[2:] == bytes(3), shown.hex()
    return shown[1]


def talk(port):
    text = ask(port, PING, b"")
    assert text == b"WHEEL UNIT NSP 01", text
    user, bootloader = bytearray(65536), bytearray(65536)
    poked = bytes(range(0xB8, 0xE0)) * 15  # 600 bytes with FEND and FESC among them
    at = 0x01F0
    for start, fram, given in [(USER_FRAM, user, poked), (BOOTLOADER_FRAM, bootloader, poked[::-1])]:
        fram[at : at + len(poked)] = given
        poke(port, start, at, given)
    for start, fram in [(USER_FRAM, user), (BOOTLOADER_FRAM, bootloader)]:
        held(port, start, fram, at, len(poked))
    over = little(USER_FRAM - 1, 4) + little(USER_FRAM, 4)
    assert ask(port, CRC, over, ack=0) == over
    # Once it is locked, bootloader FRAM is read as before, and a POKE to it is echoed and stores nothing.
    assert status(port) == UNLOCKED
    for _ in range(2):
        assert ask(port, INIT, little(LOCK, 4)) == little(LOCK, 4)
        assert status(port) == LOCKED
        poke(port, BOOTLOADER_FRAM, at, bytes(600))
        held(port, BOOTLOADER_FRAM, bootloader, at, len(poked))
    user[at : at + 600] = bytes(600)
    poke(port, USER_FRAM, at, bytes(600))
    held(port, USER_FRAM, user, at, len(poked))
    # SPEED, file 0x15, keeps its zeros; INERTIA, 0x28, in the same list is stored. Of five bytes from 0x5D5 on FLAGS_ACTIVE is kept.
    ask(port, INIT, little(APPLICATION, 4))
    assert ask(port, INIT, little(LOCK, 4), ack=0) == little(LOCK, 4)
    shown = bytes.fromhex("15 00000000 28 05060708")
    assert ask(port, WRITE_FILE, bytes.fromhex("15 01020304 28 05060708")) == shown
    assert ask(port, READ_FILE, bytes.fromhex("15 28")) == shown
    assert ask(port, WRITE_EDAC, bytes.fromhex("D505 0102030405")) == bytes.fromhex("D505 0102000405")
    assert ask(port, READ_EDAC, bytes.fromhex("D405 07")) == bytes.fromhex("D405 00010200040500")


with tempfile.TemporaryDirectory() as folder:
    name = os.path.join(folder, "wheel")
    socat = subprocess.Popen(["socat", f"PTY,link={name},rawer", "EXEC:" + shlex.join(sys.argv[1:])])
    try:
        for _ in range(200):
            if os.path.exists(name):
                break
            time.sleep(0.05)
        with serial.Serial(name, 115200, timeout=20) as port:
            talk(port)
    finally:
        socat.terminate()
        socat.wait()
print("a ping, POKE, PEEK and CRC in both FRAMs, the lock, and writes over read-only bytes over a pseudo terminal: ok")
