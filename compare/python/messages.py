"""The messages of the line as a client makes and reads them: their CRC, worked out bit by bit, and their packing."""

FEND, FESC, TFEND, TFESC = 0xC0, 0xDB, 0xDC, 0xDD
PING, INIT, PEEK, POKE, DIAGNOSTIC, CRC = 0x00, 0x01, 0x02, 0x03, 0x04, 0x06
READ_FILE, WRITE_FILE, READ_EDAC, WRITE_EDAC = 0x07, 0x08, 0x09, 0x0A
BOOTLOADER_FRAM, USER_FRAM, APPLICATION = 0x20000000, 0x20040000, 0x20050000


def crc(text):
    """ICD 10.8: start 0xFFFF, polynomial 0x8408, low bit first, no final inversion."""
    total = 0xFFFF
    for byte in text:
        for bit in range(8):
            odd = (total ^ byte >> bit) & 1
            total = total >> 1 ^ (0x8408 if odd else 0)
    return total


def little(number, size):
    return number.to_bytes(size, "little")


def packed(message):
    body = bytearray()
    for byte in message:
        body += {FEND: bytes([FESC, TFEND]), FESC: bytes([FESC, TFESC])}.get(byte, bytes([byte]))
    return bytes([FEND]) + body + bytes([FEND])


def unpacked(run):
    return run.replace(bytes([FESC, TFEND]), bytes([FEND])).replace(bytes([FESC, TFESC]), bytes([FESC]))


def line(destination, source, control, data=b""):
    """A message with its CRC, as the line carries it."""
    message = bytes([destination, source, control]) + data
    return packed(message + little(crc(message), 2))
