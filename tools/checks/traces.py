"""Changes the trace of examples/first.java and asks what is said of each changed trace. Prints a line for each: 1 or 0,
whether the answer is the one that is due, and a name. Called by traces.sh: PROGRAM TRACE ROWS FOLDER."""
import hashlib
import multiprocessing
import os
import re
import subprocess
import sys

MAGIC = 8
SEAL = 32
REFUSED = re.compile(
    r"trace: (Cut at byte \d+|Damaged at byte \d+, (Magic|FrameKind|Length|Range|Kind|Count|After)|BadSeal"
    r"|program: [A-Z]\w+ at (byte \d+|line \d+ token \d+))\n"
)


def frames(trace):
    """The first byte of each frame, by its name."""
    starts = {"all": 0}
    at, events = MAGIC, 0
    while at < len(trace):
        name = chr(trace[at])
        if name == "E":
            name, events = f"E{events}", events + 1
        starts[name] = at
        at += 5 + int.from_bytes(trace[at + 1 : at + 5], "big")
    return starts


def changed(trace, starts, changes, sealed):
    """The changed trace, and the first byte of the frame that was changed first."""
    first = None
    for change in changes.split(";"):
        place, old, new = re.fullmatch(r"(\w+@\d+) (\w*)>(\w+)", change).groups()
        frame, byte = place.split("@")
        first = starts[frame] if first is None else first
        at = starts[frame] + int(byte)
        old, new = bytes.fromhex(old), bytes.fromhex(new)
        if trace[at : at + len(old)] != old:
            raise SystemExit(f"{change}: other bytes stand there")
        trace = trace[:at] + new + trace[at + len(old) :]
    if sealed:
        body = trace[: -SEAL - 5]
        trace = trace[:-SEAL] + hashlib.sha256(body).digest()
    return trace, first


def listed(trace, rows):
    """A case for each row: its name, its trace, the words, the status and the text."""
    starts = frames(trace)
    for row in rows:
        row = row.rstrip("\n")
        if row and not row.startswith("#"):
            seal, words, status, text, changes = row.split("\t")
            altered, first = changed(trace, starts, changes, seal == "sealed")
            text = text.replace("\\n", "\n").replace("byte F", f"byte {first}") + "\n"
            yield f"{words}: {changes}", altered, words.split(), int(status), text


def cut(trace):
    """The first part of every seventh length, and the longest."""
    for size in [*range(0, len(trace), 7), len(trace) - 1]:
        yield f"cut to {size}", trace[:size], ["audit"], 5, f"trace: Cut at byte {size}\n"


def flipped(trace):
    """Each bit in turn. The text is known where the bit is in the first bytes or in the seal."""
    for byte in range(len(trace)):
        text = None
        if byte < MAGIC:
            text = f"trace: Damaged at byte {byte}, Magic\n"
        elif byte >= len(trace) - SEAL:
            text = "trace: BadSeal\n"
        for bit in range(8):
            altered = bytearray(trace)
            altered[byte] ^= 1 << bit
            yield f"byte {byte}, bit {bit}", altered, ["audit"], 5, text


def passes(case):
    name, trace, words, status, text = case
    path = f"{folder}/{os.getpid()}.trace"
    with open(path, "wb") as file:
        file.write(trace)
    call = [program, words[0], path, *words[1:]]
    done = subprocess.run(call, stdout=subprocess.PIPE, stderr=subprocess.DEVNULL, close_fds=False)
    written = done.stdout.decode(errors="replace")
    same = REFUSED.fullmatch(written) if text is None else written == text
    return f"{int(bool(same) and done.returncode == status)} {name}"


def cases(trace, rows):
    yield from listed(trace, rows)
    yield from cut(trace)
    yield from flipped(trace)


program, path, table, folder = sys.argv[1:]
with open(path, "rb") as file:
    whole = file.read()
with open(table, encoding="utf-8") as rows, multiprocessing.Pool() as pool:
    for line in pool.imap_unordered(passes, cases(whole, rows), chunksize=16):
        print(line)
