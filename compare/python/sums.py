"""sums.py PROGRAM WORDS..: the sums that the program prints of bytes from 0 to 2,000 long (compare/c/sums.c), against
crcmod's CRC-16/MCRF4XX."""

import random
import subprocess
import sys

import crcmod.predefined

mcrf4xx = crcmod.predefined.mkCrcFun("crc-16-mcrf4xx")
assert mcrf4xx(b"123456789") == 0x6F91
compared = 0
for seed in range(4):
    text = bytes(2000) if seed == 0 else random.Random(seed).randbytes(2000)
    run = subprocess.run(sys.argv[1:], input=text, stdout=subprocess.PIPE, check=True)
    came = [int(line, 16) for line in run.stdout.split()]
    due = [mcrf4xx(text[:n]) for n in range(len(text) + 1)]
    assert came == due, [n for n in range(len(due)) if came[n : n + 1] != due[n : n + 1]][:3]
    compared += len(due)
print(f"{compared} sums over lengths 0 to 2000 agree with crcmod's CRC-16/MCRF4XX")
