"""both.py BENCH WORDS..: starts tools/bench, several times, and speaks to it on both ports as on two serial ports: each address of the
unit on either port; two commands whose bytes come by turns; memory that one port writes and the other reads; the errors of either
port; runs that a reply throws away; replies that are lost to a port that is sending; what is written at once and comes byte after byte;
its words, its report and its end. Every reply is held to the bytes that are due, and the report at the end to what came here."""

import os
import queue
import re
import select
import signal
import subprocess
import sys
import threading
import time
from collections import Counter

import serial

from messages import APPLICATION, BOOTLOADER_FRAM, USER_FRAM, crc, line, little
from messages import CRC, DIAGNOSTIC, INIT, PEEK, PING, POKE, READ_FILE, WRITE_FILE

COMMAND = sys.argv[1:]
HOST = 0x11
POLL, ACK = 0x80, 0x20
TEXT = b"WHEEL UNIT NSP 01"
FEND = b"\xc0"
PATIENCE = 10  # seconds for what is due at once
# The addresses of a unit less its strap: where each is heard and where it is answered.
ADDRESSES = {0x40: (0, 1), 0x60: (0, 0), 0x50: (1, 1), 0x70: (1, 0)}
OWN = [0x60, 0x50]  # for each port the one that is heard there and answered there,
ACROSS = [0x70, 0x40]  # and the one that is heard on the other port and answered there
# The diagnostics that count what befalls a port: those of port 0, and how much higher those of port 1 are.
FRAMINGS, RUNTS, OVERSIZES, BAD_CRCS, THROWN_AWAY, LOST = 0x07, 0x08, 0x09, 0x0A, 0x0C, 0x0D
PORT_1 = 7
COUNTS = range(0x07, 0x15)


def same(name, came, due):
    if came != due:
        sys.exit(f"BAD {name}:\n{came}\nand not\n{due}")


class Bench:
    """A bench wheel, with both of its terminals open. It traces what it hears, and no more is sent before it has heard all that was: so
    the order in which the bytes of both ports come is certain."""

    def __init__(self, strap, *words):
        self.strap = strap
        command = COMMAND + ["--trace", "--for", "60", *words, str(strap)]
        self.process = subprocess.Popen(command, stdout=subprocess.PIPE, stderr=subprocess.PIPE, text=True)
        self.trace = queue.Queue()
        threading.Thread(target=self.gather, daemon=True).start()
        # What is due in its report.
        self.answers, self.counts, self.cost = Counter(), Counter(), 0
        self.replies, self.bytes = [0, 0], [0, 0]

    def gather(self):
        for words in self.process.stdout:
            self.trace.put(words.rstrip("\n"))
        self.trace.put(None)

    def told(self, patience=PATIENCE):
        """The next line of its standard output."""
        try:
            words = self.trace.get(timeout=patience)
        except queue.Empty:
            sys.exit(f"BAD the bench wheel tells nothing for {patience} s")
        if words is None:
            sys.exit(f"BAD the bench wheel has ended:\n{self.process.stderr.read()}")
        return words

    def __enter__(self):
        # The first start may build the archive.
        names = [self.told(patience=600) for _ in range(2)]
        for port, name in enumerate(names):
            assert re.fullmatch(f"port {port}: /dev/pts/[0-9]+", name), name
        self.ports = [serial.Serial(name.split()[2], 460800, timeout=PATIENCE) for name in names]
        return self

    def __exit__(self, *_):
        self.process.kill()
        self.process.wait()

    def heard(self):
        """The next byte that it hears: the port, the byte and the answer."""
        words = self.told()
        while " sends " in words:
            words = self.told()
        port, byte, answer = re.fullmatch("port ([01]) hears ([0-9A-F]{2}): answer ([0-9]+)", words).groups()
        self.answers[int(answer)] += 1
        return int(port), int(byte, 16), int(answer)

    def hear(self, port, text):
        """Sends bytes on a port, all at once, and gives the answer to each, once all are heard."""
        self.ports[port].write(text)
        heard = [self.heard() for _ in text]
        same("the trace", [(by, byte) for by, byte, _ in heard], [(port, byte) for byte in text])
        return [answer for _, _, answer in heard]

    def say(self, port, text):
        """The same, and the answer to the last."""
        return self.hear(port, text)[-1]

    def message(self, base, code, data=b"", control=POLL):
        """A command to one of the unit's addresses, as the line carries it."""
        return line(base + self.strap, HOST, control | code, data)

    def comes(self, base, code, data, ack=ACK):
        """A reply must come from one of the unit's addresses, on the port where it is answered, with such data, and no byte before."""
        port = ADDRESSES[base][1]
        reply = self.ports[port].read(1) + self.ports[port].read_until(FEND)
        due = line(HOST, base + self.strap, POLL | ack | code, data)
        same(f"a reply of {base + self.strap:#x} on port {port}", reply.hex(" "), due.hex(" "))
        self.replies[port] += 1
        self.bytes[port] += len(reply)

    def ask(self, base, code, data, due, ack=ACK):
        """A command to one of the unit's addresses, where it is heard, must be answered so."""
        same("the answer", self.say(ADDRESSES[base][0], self.message(base, code, data)), 1 if ack else 3)
        self.comes(base, code, due, ack)

    def ping(self, base):
        self.ask(base, PING, b"", TEXT)

    def count(self, port, diagnostic):
        """A count of a port that moves by one."""
        self.counts[diagnostic + port * PORT_1] += 1

    def counted(self, base):
        """The counts of both ports, which a DIAGNOSTIC to this address shows, must be those that are due."""
        self.ask(base, DIAGNOSTIC, bytes(COUNTS), b"".join(bytes([i]) + little(self.counts[i], 4) for i in COUNTS))

    def end(self, number=signal.SIGTERM):
        """Nothing more must come, and at a signal the wheel must end and say what is due."""
        for base in ADDRESSES:
            self.ping(base)
        same("bytes that nobody is due", [port.in_waiting for port in self.ports], [0, 0])
        self.process.send_signal(number)
        same("the exit status", self.process.wait(timeout=PATIENCE), 0)
        due = [f"answer {i}: {self.answers[i]}" for i in sorted(self.answers)]
        due += [f"diagnostic {i}: {self.counts[i]}" for i in COUNTS if self.counts[i]]
        due += ["bootloader FRAM: unlocked", f"largest cost of a CRC: {self.cost}"]
        for port in range(2):
            due += [f"replies sent on port {port}: {self.replies[port]}", f"bytes sent on port {port}: {self.bytes[port]}"]
        same("the report", self.process.stderr.read().splitlines(), due)


def addresses():
    """Each address is answered on its port, and heard on no other; and so with the straps at both ends."""
    for strap, number in [(1, signal.SIGTERM), (0, signal.SIGINT), (7, signal.SIGHUP)]:
        with Bench(strap) as bench:
            for base, (heard, _) in ADDRESSES.items():
                same("an address on the wrong port", bench.say(1 - heard, bench.message(base, PING)), 9)
                same("another strap", bench.say(heard, line(base + (strap ^ 1), HOST, POLL | PING)), 9)
                bench.ping(base)
            bench.counted(0x40)
            bench.end(number)


def by_turns(bench):
    """Two commands whose bytes come by turns, one on each port, each answered on its own."""
    data = little(USER_FRAM, 4) + bytes([0xC0, 0xDB, 0x01])
    texts = [bench.message(0x60, PING), bench.message(0x50, POKE, data)]
    for i in range(max(map(len, texts))):
        for port, text in enumerate(texts):
            if i < len(text):
                same("bytes by turns", bench.say(port, text[i : i + 1]), int(i == len(text) - 1))
    bench.comes(0x50, POKE, data)
    bench.comes(0x60, PING, TEXT)


def memory(bench):
    """There is one memory: what one port writes, the other reads, in user FRAM, bootloader FRAM and EDAC, and one mode."""
    poked = bytes(range(0xB8, 0xE0)) * 15  # with FEND and FESC among them
    for writes, reads, start in [(0x60, (0x50, 0x70), USER_FRAM), (0x50, (0x60, 0x40), BOOTLOADER_FRAM)]:
        at = start + 0x01F0
        bench.ask(writes, POKE, little(at, 4) + poked, little(at, 4) + poked)
        for base in reads:
            bench.ask(base, PEEK, little(at - 2, 4) + little(604, 2), little(at - 2, 4) + bytes(2) + poked + bytes(2))
            asked = little(at, 4) + little(at + 599, 4)
            # 0x01F0 to 0x0447: 16 bytes, two blocks and 72 bytes.
            bench.ask(base, CRC, asked, asked + little(crc(poked), 2))
            bench.cost = 16 + 2 + 72
    bench.ask(0x40, WRITE_FILE, bytes.fromhex("28 05060708"), bytes.fromhex("28 05060708"), ack=0)
    bench.ask(0x60, INIT, little(APPLICATION, 4), little(APPLICATION, 4))
    bench.ask(0x50, WRITE_FILE, bytes.fromhex("28 05060708"), bytes.fromhex("28 05060708"))
    bench.ask(0x60, READ_FILE, bytes.fromhex("28"), bytes.fromhex("28 05060708"))
    bench.ask(0x70, INIT, b"", b"")


def errors(bench):
    """The runs that either port drops, each kind another number of times."""
    bad = bench.message(0x60, PING)
    runs = [
        (5, FRAMINGS, b"\xdb\x00", [1, 2]),
        (6, RUNTS, b"\x61\x11\x80\xe3", [3, 4]),
        (7, OVERSIZES, b"\x55" * 1034, [1, 3]),
        (8, BAD_CRCS, bad[1:-2] + bytes([bad[-2] ^ 1]), [2, 5]),
    ]
    for answer, diagnostic, run, times in runs:
        for port in range(2):
            for _ in range(times[port]):
                same("a run that is dropped", bench.say(port, FEND + run + FEND), answer)
                bench.count(port, diagnostic)
        bench.counted(0x50)


def thrown_away(bench):
    """A reply that leaves on a port throws the open run there away, once, and the message behind its FEND is received."""
    for port in range(2):
        own, across, other = OWN[port], ACROSS[port], OWN[1 - port]
        ping = bench.message(own, PING)
        bench.say(port, ping[:3])
        bench.ping(across)
        bench.count(port, THROWN_AWAY)
        bench.counted(other)
        bench.ping(across)  # which finds nothing more to throw away
        for byte in ping[3:-1] + b"\xdb" + FEND:
            same("a run that is thrown away", bench.say(port, bytes([byte])), 0)
        bench.ping(across)  # which leaves the empty run alone that this FEND has opened
        bench.counted(other)
        same("the next message", bench.say(port, ping[1:]), 1)
        bench.comes(own, PING, TEXT)
        # A FESC alone is an open run. The reply that throws it away shows the count before.
        bench.say(port, FEND + b"\xdb")
        bench.counted(across)
        bench.count(port, THROWN_AWAY)
        bench.say(port, FEND)
        bench.counted(own)


def lost():
    """A reply for a port that is sending is lost and counted, its command done or refused, and nothing is thrown away. A reply with 1,024
    bytes of memory is some two seconds on this line, far longer than what is done meanwhile takes."""
    with Bench(6, "--baud", "4800") as bench:
        for port in range(2):
            own, across, other = OWN[port], ACROSS[port], OWN[1 - port]
            at = USER_FRAM + 0x100 * port
            peek = little(at, 4) + little(1024, 2)
            same("a long reply", bench.say(port, bench.message(own, PEEK, peek)), 1)
            same("a ping whose reply is lost", bench.say(port, bench.message(own, PING)), 2)
            bench.count(port, LOST)
            bench.counted(other)
            poke = little(at, 4) + b"\xaa\xbb"
            same("a POKE whose reply is lost", bench.say(1 - port, bench.message(across, POKE, poke)), 2)
            same("a refusal that is lost", bench.say(1 - port, bench.message(across, INIT, b"\x00")), 4)
            same("a ping with poll clear", bench.say(1 - port, bench.message(across, PING, control=0)), 2)
            ping = bench.message(own, PING)
            bench.say(port, ping[:4])
            same("a ping amid a run", bench.say(1 - port, bench.message(across, PING)), 2)
            bench.counts[LOST + port * PORT_1] += 3
            bench.counted(other)
            same("bytes before their time", bench.ports[port].in_waiting, 0)
            bench.comes(own, PEEK, little(at, 4) + bytes(1024))
            same("the run that was open", bench.say(port, ping[4:]), 1)
            bench.comes(own, PING, TEXT)
            bench.ask(other, PEEK, little(at, 4) + b"\x02", poke)
        bench.end()


def at_once(baud):
    """What is written at once comes byte after byte, and what is sent leaves so: a reply is lost by the bytes that come while the one
    before it leaves, and not by how the terminal hands them over. No byte is heard, and no reply comes, before its time."""
    nanoseconds = 10**10 // baud  # for each byte

    def took(start, count):
        """So many bytes must have had their time since then."""
        same(f"the time of {count} bytes at {baud}", time.monotonic_ns() - start >= count * nanoseconds, True)

    with Bench(3, "--baud", str(baud)) as bench:
        for base, (port, answered) in ADDRESSES.items():
            ping = bench.message(base, PING)
            reply = len(line(HOST, base + bench.strap, POLL | ACK | PING, TEXT))
            # The last byte of the second ping comes right behind the first, one before its reply has left, and when it just has.
            for later in (len(ping), reply - 1, reply):
                start = time.monotonic_ns()
                answers = bench.hear(port, ping + FEND * (later - len(ping)) + ping)
                took(start, len(ping) + later - 1)
                lost = later < reply
                same(f"two pings, {later} bytes apart", (answers[len(ping) - 1], answers[-1]), (1, 2 if lost else 1))
                bench.comes(base, PING, TEXT)
                if lost:
                    bench.count(answered, LOST)
                else:
                    bench.comes(base, PING, TEXT)
                    took(start, len(ping) - 1 + reply + reply)
            # A long command behind it comes when the reply has left, and so does one that is answered on the other port.
            data = little(USER_FRAM, 4) + bytes(1000)
            answers = bench.hear(port, ping + bench.message(base, POKE, data))
            same("a ping and a POKE", (answers[len(ping) - 1], answers[-1]), (1, 1))
            bench.comes(base, PING, TEXT)
            bench.comes(base, POKE, data)
            other = next(b for b, (by, at) in ADDRESSES.items() if by == port and at != answered)
            answers = bench.hear(port, ping + bench.message(other, PING))
            same("a ping for each port", (answers[len(ping) - 1], answers[-1]), (1, 1))
            bench.comes(base, PING, TEXT)
            bench.comes(other, PING, TEXT)
        bench.counted(0x40)
        # More than is read ahead.
        start = time.monotonic_ns()
        same("a long run", bench.say(1, FEND + bytes(range(0xC0)) * 50 + FEND), 7)
        took(start, 50 * 0xC0 + 1)
        bench.count(1, OVERSIZES)
        bench.counted(0x50)
        bench.end()


def in_order():
    """The bytes of both ports are heard in the order in which they come: a long message on one port, written first, is still coming when
    a short one on the other has come, whose reply throws it away."""
    with Bench(5, "--baud", "9600") as bench:
        for port in range(2):
            own, across = OWN[port], ACROSS[port]
            texts = {port: bench.message(own, POKE, little(USER_FRAM, 4) + bytes(300)), 1 - port: bench.message(across, PING)}
            for by, text in texts.items():
                bench.ports[by].write(text)
                time.sleep(0.05)  # a small part of the time that the long one takes
            heard = [bench.heard() for _ in b"".join(texts.values())]
            for by, text in texts.items():
                same("the bytes of a port", bytes(byte for at, byte, _ in heard if at == by), text)
            same("the answers", [(by, answer) for by, _, answer in heard if answer], [(1 - port, 1)])
            same("the last byte", heard[-1], (port, FEND[0], 0))
            # While the short one comes, the two come by turns.
            first, *_, last = [i for i, (by, _, _) in enumerate(heard) if by != port]
            same("bytes by turns", last - first, 2 * len(texts[1 - port]) - 2)
            bench.comes(across, PING, TEXT)
            bench.count(port, THROWN_AWAY)
        bench.counted(0x40)
        bench.end()


def unread():
    """A terminal that nobody reads gets full. Then its port is sending until somebody does. Each command is answered, or counted as one
    whose reply is lost."""
    with Bench(1, "--baud", "4000000") as bench:
        peek = little(USER_FRAM, 4) + little(1024, 2)
        waiting = in_turn = 0
        while in_turn < 5:
            time.sleep(0.02)  # several times as long as a reply is on this line
            if bench.say(0, bench.message(0x40, PEEK, peek)) == 1:
                waiting, in_turn = waiting + 1, 0
            else:
                bench.count(1, LOST)
                in_turn += 1
            assert waiting < 1000, "a terminal that takes all"
        assert waiting > 1, "a terminal that takes nothing"
        bench.counted(0x60)
        for _ in range(waiting):
            bench.comes(0x40, PEEK, little(USER_FRAM, 4) + bytes(1024))
        bench.end()


def plain():
    """A client that sets nothing on the terminals: every byte goes through them as it is, in both directions."""
    data = little(USER_FRAM, 4) + bytes(range(256))
    with subprocess.Popen(COMMAND + ["--for", "20"], stdout=subprocess.PIPE, stderr=subprocess.DEVNULL, text=True) as process:
        files = [os.open(process.stdout.readline().split()[2], os.O_RDWR | os.O_NOCTTY) for _ in range(2)]
        for heard, answered, address in [(0, 1, 0x41), (1, 0, 0x71)]:
            os.write(files[heard], line(address, HOST, POLL | POKE, data))
            came, due = b"", line(HOST, address, POLL | ACK | POKE, data)
            while len(came) < len(due) and select.select([files[answered]], [], [], PATIENCE)[0]:
                came += os.read(files[answered], 4096)
            same("every byte", came.hex(" "), due.hex(" "))
        process.terminate()


def words():
    """What the command line may say, and what not."""
    usage = "usage: bench [--baud N] [--for SECONDS] [--trace] [STRAP [FRAM [LIMIT [BOOTLOADER [LOCK]]]]]"
    size = "a multiple of 256 from 256 to 262144"
    bad = [
        ("STRAP is a number from 0 to 7", ["8"], ["-1"], [""], ["0x"], ["1_0"], ["9" * 5000], ["8", "256", "259"]),
        (f"FRAM is {size}", ["1", "0"], ["1", "257"], ["1", "262400", "259"]),
        ("LIMIT is a number from 260 to 1028", ["1", "256", "259"], ["1", "256", "0x405", "0"]),
        (f"BOOTLOADER is {size}", ["1", "256", "260", "255", "no"], ["1", "256", "260", "0x40100"]),
        ("LOCK is locked or unlocked", ["1", "256", "260", "256", "Locked"], ["1", "256", "260", "256", ""]),
        ("--baud is a number from 50 to 4000000", ["--baud"], ["--baud", "49"], ["--baud", "4000001"]),
        ("--for is a number from 0 to 86400", ["--for", "-1"], ["1", "--for", "86401"]),
        ("6 is one word too many", ["1", "256", "260", "256", "locked", "6"], ["9", "0", "0", "0", "no", "6", "7"]),
        ("there is no option --port", ["--port"], ["--port", "1", "256", "260", "256", "locked", "6"]),
        ("there is no option --baud=9600", ["--baud=9600"], ["1", "--baud=9600"]),
    ]

    def ran(*said):
        ended = subprocess.run(COMMAND + list(said), capture_output=True, text=True, timeout=PATIENCE)
        return ended.returncode, ended.stdout, ended.stderr

    for why, *cases in bad:
        for case in cases:
            same(f"the words {case}", ran(*case), (2, "", f"bench: {why}; {usage}\n"))
    same("the help", ran("-h")[1].splitlines()[0], usage)
    status, out, said = ran("--for", "0", "0x7", "256", "260", "0x40000", "locked")
    same("a wheel for no time", (status, len(out.splitlines()), said.splitlines()[0]), (0, 2, "bootloader FRAM: locked"))
    # Nobody reads its trace any more.
    command = COMMAND + ["--trace", "--for", "20"]
    with subprocess.Popen(command, stdout=subprocess.PIPE, stderr=subprocess.PIPE, text=True) as process:
        name = process.stdout.readline().split()[2]
        process.stdout.readline()
        process.stdout.close()
        with serial.Serial(name, 460800) as port:
            port.write(FEND)
            same("a closed trace", process.wait(timeout=PATIENCE), 1)
        same("what it says", process.stderr.read().splitlines()[:2], ["bench: [Errno 32] Broken pipe", "answer 0: 1"])


addresses()
with Bench(1) as one:
    by_turns(one)
    memory(one)
    errors(one)
    thrown_away(one)
    by_turns(one)
    one.end()
lost()
for speed in (115200, 460800, 4000000):
    at_once(speed)
in_order()
unread()
plain()
words()
print("addresses, memory, errors, runs thrown away, replies lost, the time of a byte, words and report, on both ports over pseudo terminals: ok")
