"""rows.py DOCUMENT ROWS PROGRAM WORDS..: the read-only rows that ROWS prints (tools/rows), row by row against those of the document's
table (docs/EDAC.md), and address by address against what the program finds out of the C face (compare/c/rows.c); and all rows of the
table, writable ones too, against that. The same is then done with faults planted in copies of the list, in the rows of the table and in
what was found out: each must be told, and a malformed list be refused."""

import itertools
import os
import re
import subprocess
import sys
import tempfile

LIST = "crates/read_only/src/list.rt"
HEADER = "| EDAC address | File | Name | On the line | The prose of 12.4 |"
ROW = re.compile(r"\| ([^|]+) \| ([^|]+) \| ([^|]+) \| (read-only|writable) \| [^|]+ \|")
document, command, *program = sys.argv[1:]


def documented():
    """The rows of the document's table: address, file, name, and read-only or writable. The table must be whole, or a row could go unseen."""
    with open(document, encoding="utf8") as f:
        parts = re.split(r"^## The ([0-9]+) rows$", f.read(), flags=re.M)
    assert len(parts) == 3, f"{document} does not have one heading '## The N rows'"
    header, *lines = [line for line in parts[2].split("\n## ")[0].split("\n") if line.startswith("|")]
    assert header == HEADER, f"{document}: the table starts with {header}"
    assert len(lines[1:]) == int(parts[1]), f"{document} has {len(lines[1:])} rows under 'The {parts[1]} rows'"
    rows = []
    for line in lines[1:]:
        row = ROW.fullmatch(line)
        assert row, f"{document}: not five cells with read-only or writable in the fourth: {line}"
        rows.append([row[1], row[2], row[3], row[4]])
    return rows


def printed(*words):
    """The rows that the command prints: address, file, name, with two spaces or more between."""
    run = subprocess.run([command, *words], stdout=subprocess.PIPE, check=True, text=True)
    return [re.split(r" {2,}", line) for line in run.stdout.splitlines()]


def found_out():
    """What the program found out: the name of each command, and a letter for each address."""
    run = subprocess.run(program, stdout=subprocess.PIPE, text=True)
    lines = run.stdout.splitlines()
    sound = len(lines) == 2 and re.fullmatch("[RW]{1536}", lines[0]) and re.fullmatch("[RW]{1024}", lines[1])
    if run.returncode != 0 or not sound:
        sys.exit(f"{run.stdout}{' '.join(program)} ended with {run.returncode}, not with 1536 and 1024 letters R or W")
    return [("WRITE EDAC", lines[0]), ("WRITE FILE", lines[1])]


def ends_of(address):
    """The first and the last address of a row."""
    ends = [int(end, 16) for end in address.split(" to ")]
    return ends[0], ends[-1]


def on_the_page(page, found):
    """What is wrong with rows of the document: their order, their file, and how their bytes stand. For each a name, a colon, and what."""
    told, behind = [], 0
    for address, file, name, mark in page:
        first, last = ends_of(address)
        if not behind <= first <= last < len(found[0][1]):
            told.append(f"{name}: {address} does not follow the row before it, or lies outside EDAC memory")
        behind = last + 1
        due = f"0x{first // 4:02X}" if first % 4 == 0 and last == first + 3 and last < len(found[1][1]) else "-"
        if file != due:
            told.append(f"{name}: the file of {address} is {due}, and not {file}")
        for by, letters in found:
            if not set(letters[first : last + 1]) <= {"R" if mark == "read-only" else "W"}:
                told.append(f"{name}: by {by} the bytes of {address} are not {mark}")
    return told


def differences(rows, found):
    """What does not agree: for each a name, a colon, and what is wrong."""
    told = []
    if len(rows) != len(table):
        told.append(f"number of rows: {len(rows)} are printed, {document} has {len(table)}")
    for number, (came, due) in enumerate(itertools.zip_longest(rows, table, fillvalue=["nothing"]), 1):
        if came != due:
            told.append(f"row {number}: printed is {'  '.join(came)}; {document} has {'  '.join(due)}")
    kept = set()
    for row in rows:
        first, last = ends_of(row[0])
        kept.update(range(first, last + 1))
    for by, letters in found:
        for at, letter in enumerate(letters):
            if letter == "R" and at not in kept:
                told.append(f"0x{at:03X} by {by}: the C face keeps it, and no printed row has it")
            if letter == "W" and at in kept:
                told.append(f"0x{at:03X} by {by}: the C face stores it, and a printed row has it")
    return told


def expect(fault, told, due):
    """A planted fault must be told by these names and by no others."""
    assert [line.split(":")[0] for line in told] == due, f"{fault}: told is {told}; due is {due}"


def put(path, text):
    with open(path, "w", encoding="utf8") as f:
        f.write(text)


def altered(text, old, new):
    assert text.count(old) == 1, f"a fault cannot be planted: {LIST} does not have once {old!r}"
    return text.replace(old, new)


def planted(text):
    """Faults in the list: what is wrong, the altered list, and the names by which it must be told."""
    fewer = altered(text, "2]; 39]", "2]; 38]")
    one, other = "    [0x048, 0x04b], // TEMP2\n", "    [0x04c, 0x04f], // TEMP3\n"
    yield "two rows exchanged", altered(text, one + other, other + one), ["row 4", "row 5"]
    short = ["row 1", "0x00F by WRITE EDAC", "0x00F by WRITE FILE"]
    yield "a row one byte short", altered(text, "0x00c, 0x00f", "0x00c, 0x00e"), short
    yield "a row one byte long", altered(text, "0x5d7, 0x5d7", "0x5d7, 0x5d8"), ["row 39", "0x5D8 by WRITE EDAC"]
    gone = ["number of rows", "row 39", "0x5D7 by WRITE EDAC"]
    yield "a row left out", altered(fewer, "    [0x5d7, 0x5d7], // FLAGS_ACTIVE\n", ""), gone
    yield "a name altered", altered(text, "// SPEED\n", "// SPEEDS\n"), ["row 6"]
    two = "    [0x21c, 0x21f], // ADC_RAW_TEMP3\n    [0x220, 0x223], // ADC_RAW_CALIBRATE\n"
    merged = altered(fewer, two, "    [0x21c, 0x223], // ADC_RAW_TEMP3\n")
    yield "two rows made one", merged, ["number of rows", "row 37", "row 38", "row 39"]


def malformed(text):
    """Lists that must be refused: what is wrong, the altered list, and the line that must be named."""
    first = text.split("\n").index("    [0x00c, 0x00f], // VBUS") + 1
    yield "an upper-case digit", altered(text, "0x00c, 0x00f", "0x00C, 0x00F"), first
    yield "two digits", altered(text, "0x00c, 0x00f", "0x0c, 0x0f"), first
    yield "a row without a name", altered(text, " // VBUS", ""), first
    yield "a row in a comment", altered(text, "    [0x00c", "    // [0x00c"), first
    yield "a number that is not that of the rows", altered(text, "2]; 39]", "2]; 40]"), first - 1
    yield "another constant", altered(text, "const READ_ONLY:", "const READ_WRITE:"), text.count("\n")
    cut = text[: text.index("];\n")]
    yield "a list that does not end", cut, cut.count("\n")


page = documented()
table = [row[:3] for row in page if row[3] == "read-only"]
rows = printed()
found = found_out()
told = differences(rows, found) + on_the_page(page, found)
if told:
    print("\n".join(told[:5]))
    sys.exit(f"{command}, {document} and the C face do not agree; differences: {len(told)}")

assert printed(LIST) == rows, f"{command} prints another list than that of {LIST}"
with open(LIST, encoding="utf8") as f:
    text = f.read()
faults = 0
with tempfile.TemporaryDirectory() as folder:
    copy = os.path.join(folder, "list.rt")
    for fault, wrong, due in planted(text):
        put(copy, wrong)
        expect(fault, differences(printed(copy), found), due)
        faults += 1
    for fault, wrong, number in malformed(text):
        put(copy, wrong)
        run = subprocess.run([command, copy], stdout=subprocess.PIPE, stderr=subprocess.PIPE, text=True)
        refused = run.returncode == 1 and run.stdout == "" and run.stderr.startswith(f"{copy}:{number}: ")
        assert refused, f"{fault}: not refused at line {number}: {(run.stderr or run.stdout)[:100]!r}"
        faults += 1
for name, which, cell, due in [
    ("INERTIA", 0, "0x0A0 to 0x0A4", ["INERTIA", "MOTOR_KT"]),
    ("INERTIA", 0, "0x09B to 0x0A3", ["INERTIA", "INERTIA"]),
    ("INERTIA", 1, "0x29", ["INERTIA"]),
    ("FAULT_OVERCURRENT", 0, "0x1D4 to 0x1D4", ["FAULT_OVERCURRENT"]),
    ("INERTIA", 3, "read-only", ["INERTIA", "INERTIA"]),
    ("SPEED", 3, "writable", ["SPEED", "SPEED"]),
    ("FLAGS_ACTIVE", 0, "0x5D7 to 0x5D8", ["FLAGS_ACTIVE", "FAULTS_MASK"]),
]:
    wrong = [row[:which] + [cell] + row[which + 1 :] if row[2] == name else row for row in page]
    expect(f"{name} with {cell}", on_the_page(wrong, found), due)
    faults += 1
for which, at in [(0, 0x000), (0, 0x00C), (0, 0x5D7), (0, 0x5FF), (1, 0x000), (1, 0x00C), (1, 0x3FF)]:
    by, letters = found[which]
    wrong = list(found)
    wrong[which] = by, letters[:at] + ("W" if letters[at] == "R" else "R") + letters[at + 1 :]
    expect("a letter altered", differences(rows, wrong), [f"0x{at:03X} by {by}"])
    faults += 1
print(
    f"{len(rows)} read-only rows agree with {document}, its {len(page)} rows with the C face, and {len(found[0][1])} addresses with it by "
    f"WRITE EDAC and {len(found[1][1])} by WRITE FILE; {faults} planted faults are told"
)
