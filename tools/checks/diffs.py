"""Where two recorded runs part, found in the bytes of their traces by docs/trace-format.md, with the lines that `whylens events` has.
Knows nothing of `whylens diff`. Called by diffs.sh: GOOD BAD EVENTS-OF-GOOD EVENTS-OF-BAD NAME-OF-BAD"""
import struct
import sys

from reader import frames


def records(path):
    with open(path, "rb") as file:
        parts = list(frames(file.read()))
    return [payload for kind, payload, _ in parts if kind == b"E"], [payload for kind, payload, _ in parts if kind == b"T"]


def step(payload):
    """What an event is, where, in which frame and of what."""
    kind, site, frame, _, what = struct.unpack(">BIIII", payload[:17])
    return kind, site, frame, what


def first_part(good, bad, look):
    for n in range(max(len(good), len(bad))):
        if n >= len(good) or n >= len(bad) or look(good[n]) != look(bad[n]):
            return n
    return None


def main(good, bad, good_lines, bad_lines, name):
    (events, tail), (others, other_tail) = records(good), records(bad)
    with open(good_lines) as file:
        lines = file.read().splitlines()
    with open(bad_lines) as file:
        other_lines = file.read().splitlines()
    values, paths = first_part(events, others, bytes), first_part(events, others, step)

    def part(what, n):
        print(f"{what} part at #{n}")
        print("< " + (lines[n] if n < len(lines) else "ended"))
        print("> " + (other_lines[n] if n < len(other_lines) else "ended"))

    if values is None:
        print("equal" if tail == other_tail else "equal but for the end")
    elif paths is None:
        part("values", values)
        print(f"paths agree\nask: whyline affects {name} e{values}")
    else:
        if values < paths:
            part("values", values)
        part("paths" if values < paths else "values and paths", paths)
        print(f"ask: whyline why {name} e{paths}" if paths < len(others) else f"ask: whylens show {name} --stop")


main(*sys.argv[1:])
