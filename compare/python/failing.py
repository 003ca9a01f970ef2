"""failing.py LIBRARY PROGRAM WORDS..: runs the wheel for its help, and where a read or a write fails, would block, is broken off or moves few
bytes, and holds what it writes and says to what is due. LIBRARY is compare/c/broken.c, compiled to be laid before the C
library."""

import fcntl
import os
import platform
import resource
import subprocess
import sys
import tempfile

library, wheel = sys.argv[1], sys.argv[2:]
PING = bytes.fromhex("c0611180e36ec0")
REPLY = bytes.fromhex("c01161a0574845454c20554e4954204e53502030319895c0")
P6 = bytes.fromhex("c0411180d86dc0")  # a ping that is answered on port 1
# Messages may share a FEND: each one more has 6 bytes.
MANY = PING[:1] + PING[1:] * 400
F_SETPIPE_SZ = 1031
UNOPENED = 1023  # a file descriptor that nobody opens


def said(pings, replies, written, failure="", left=0):
    """What is due on standard error after so many pings."""
    lines = [failure] if failure else []
    lines += [f"answer 0: {5 * pings + 1}", f"answer 1: {pings}"] if pings else []
    lines += ["bootloader FRAM: unlocked", "largest cost of a CRC: 0", f"replies written on port 0: {replies}", f"bytes written on port 0: {written}", f"replies left on port 1: {left}", ""]
    return "\n".join(lines)


def same(name, came, due):
    if came != due:
        sys.exit(f"BAD {name}:\n{came}\nand not\n{due}")


def ended(name, stdin, stdout, environment=None, port1=None):
    """Runs the wheel, which has to end by itself though its input stays open, and gives what it said. It may not write more
    than a little to a file, so that one that never stops talking is stopped."""
    with tempfile.TemporaryFile() as words:
        process = subprocess.Popen(
            wheel + (["1", "65536", "1028", "65536", "unlocked", str(port1)] if port1 else []),
            stdin=stdin,
            stdout=stdout,
            stderr=words,
            restore_signals=False,
            pass_fds=[port1] if port1 and port1 != UNOPENED else [],
            env={**os.environ, **(environment or {})},
            preexec_fn=lambda: resource.setrlimit(resource.RLIMIT_FSIZE, (1 << 20, 1 << 20)),
        )
        try:
            process.wait(timeout=60)
        except subprocess.TimeoutExpired:
            process.kill()
            sys.exit(f"BAD {name}: the wheel did not end")
        words.seek(0)
        return words.read(10_000).decode()


def run(name, due, stdin, stdout, environment=None, port1=None):
    same(name, ended(name, stdin, stdout, environment, port1), due)


def pipe(text=b"", size=None):
    """A pipe with some bytes in it, both of its ends open."""
    ends = os.pipe()
    if size:
        fcntl.fcntl(ends[1], F_SETPIPE_SZ, size)
    os.write(ends[1], text)
    return ends


def no_wait(end):
    os.set_blocking(end, False)
    return end


def file_of(text):
    file = tempfile.TemporaryFile()
    file.write(text)
    file.seek(0)
    return file


def full():
    failure = "wheel: cannot write standard output: No space left on device"
    with open("/dev/full", "wb") as out:
        run("a full device", said(1, 0, 0, failure), pipe(PING)[0], out)
        run("a full device and no reply", said(0, 0, 0), file_of(b""), out)
    # Several times more replies than are held: the wheel ends at the first write that fails, in the midst of a read.
    with open("/dev/full", "wb") as out:
        lines = ended("a full device, many replies", file_of(MANY * 50), out).split("\n")
    same("a full device, many replies: failures", [line for line in lines if line.startswith("wheel:")], [failure])
    same("a full device, many replies: written", lines[-4:], ["replies written on port 0: 0", "bytes written on port 0: 0", "replies left on port 1: 0", ""])


def closed():
    ends = pipe()
    os.close(ends[0])
    failure = "wheel: cannot write standard output: Broken pipe"
    run("a closed pipe, no signal", said(1, 0, 0, failure), pipe(PING)[0], ends[1])


def blocking():
    failure = "wheel: standard input would block: O_NONBLOCK is set on it; open it without"
    run("an input that would block", said(0, 0, 0, failure), no_wait(pipe()[0]), subprocess.DEVNULL)
    out = pipe()
    run("an input that would block, later", said(1, 1, 24, failure), no_wait(pipe(PING)[0]), out[1])
    same("its reply", os.read(out[0], 99), REPLY)
    failure = "wheel: standard output would block: O_NONBLOCK is set on it; open it without"
    out = pipe(size=4096)
    run("an output that would block", said(400, 170, 4096, failure), file_of(MANY), no_wait(out[1]))
    same("what was written", os.read(out[0], 9999), (REPLY * 400)[:4096])


def broken():
    name = "LD_PRELOAD" if platform.machine() == "x86_64" else "QEMU_SET_ENV"
    value = library if name == "LD_PRELOAD" else f"LD_PRELOAD={library}"

    def way(which):
        return {name: value, "BROKEN": which}

    out = file_of(b"")
    run("calls that a signal breaks off", said(400, 400, 9600), file_of(MANY), out, way("signal"))
    out.seek(0)
    same("the replies", out.read(), REPLY * 400)
    for which, failure in [
        ("first", "wheel: cannot write standard output: Input/output error"),
        ("none", "wheel: standard output takes no bytes"),
    ]:
        out = file_of(b"")
        run("no second write: " + which, said(400, 0, 0, failure), file_of(MANY), out, way(which))
        out.seek(0)
        same("nothing written: " + which, out.read(), b"")


def port_1():
    """The file of port 1: full, closed, not open, one that would block; and standard output that fails before port 1 has its turn."""

    def fails(name, why, file):
        failure = f"wheel: cannot write the file of port 1: {why}"
        run("port 1: " + name, said(1, 0, 0, failure, left=1), pipe(P6)[0], subprocess.DEVNULL, port1=file)

    with open("/dev/full", "wb") as out:
        fails("a full device", "No space left on device", out.fileno())
        run("port 1: a full device and no reply there", said(1, 1, 24), file_of(PING), subprocess.DEVNULL, port1=out.fileno())
    ends = pipe()
    os.close(ends[0])
    fails("a closed pipe, no signal", "Broken pipe", ends[1])
    fails("a file that is not open", "Bad file descriptor", UNOPENED)
    failure = "wheel: the file of port 1 would block: O_NONBLOCK is set on it; open it without"
    out = pipe(size=4096)
    run("port 1: would block", said(400, 0, 0, failure, left=400), file_of(P6[:1] + P6[1:] * 400), subprocess.DEVNULL, port1=no_wait(out[1]))
    same("what was written on port 1", len(os.read(out[0], 9999)), 4096)
    with open("/dev/full", "wb") as full, tempfile.TemporaryFile() as out:
        failure = "wheel: cannot write standard output: No space left on device"
        run("a full device before port 1", said(2, 0, 0, failure, left=1), pipe(PING + P6[1:])[0], full, port1=out.fileno())
        same("nothing written on port 1", os.fstat(out.fileno()).st_size, 0)


def directory():
    failure = "wheel: cannot read standard input: Is a directory"
    run("an input that cannot be read", said(0, 0, 0, failure), os.open("/", os.O_RDONLY), subprocess.DEVNULL)


def helped():
    """The help waits for no input."""
    process = subprocess.run(wheel + ["--help"], stdin=pipe()[0], stdout=subprocess.PIPE, timeout=60)
    same("the help's first line", process.stdout.split(b"\n")[0], b"usage: wheel [STRAP [FRAM [LIMIT [BOOTLOADER [LOCK [PORT1]]]]]]")


helped()
full()
closed()
blocking()
broken()
port_1()
directory()
print("a full device, a closed pipe, calls that would block, that are broken off, that fail, on either port: ok")
