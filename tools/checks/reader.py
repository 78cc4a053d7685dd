"""A reader of traces written from docs/trace-format.md alone. Prints what the run of TRACE wrote and how it ended, as the
command output does. Of constant texts it knows literals, and no larger constant expressions. Called by reader.sh: TRACE"""
import hashlib
import re
import struct
import sys

MAGICS, NONE, FIRST_CLASS = (b"WHYTRAC1", b"WHYTRAC2"), 0xFFFFFFFF, 18
NEW, TEXT, PRINT = 1, 6, 8
LIBRARY = """Object String Throwable Exception Error RuntimeException ArithmeticException ArrayStoreException ClassCastException
IllegalArgumentException NumberFormatException IllegalStateException IndexOutOfBoundsException ArrayIndexOutOfBoundsException
StringIndexOutOfBoundsException NegativeArraySizeException NullPointerException UnsupportedOperationException""".split()
LINES = [
    "finished", "", "step limit", "event limit", "use limit", "element limit", "text limit", "output limit", "depth limit",
    "unassigned local", "fell off", "initializer failed",
]
TOKEN = re.compile(
    r"""(?P<blank>\s+|//[^\n]*|/\*.*?\*/)|(?P<token>"(?:\\.|[^"\\])*"|'(?:\\.|[^'\\])*'|[A-Za-z_$][\w$]*|\d[\w]*"""
    r"""|>>>=|<<=|>>=|>>>|\.\.\.|[=!<>+\-*/&|^%]=|&&|\|\||\+\+|--|<<|>>|->|::|.)""",
    re.S,
)
SIMPLE = {"n": "\n", "t": "\t", "b": "\b", "f": "\f", "r": "\r"}


def frames(data):
    assert data.startswith(MAGICS)
    at = len(MAGICS[0])
    while at < len(data):
        size = int.from_bytes(data[at + 1 : at + 5], "big")
        yield data[at : at + 1], data[at + 5 : at + 5 + size], at
        at += 5 + size


def tokens(source):
    """Each token with its line."""
    found, line = [], 1
    for match in TOKEN.finditer(source.replace("\r\n", "\n").replace("\r", "\n")):
        if match["token"]:
            found.append((match["token"], line))
        line += match[0].count("\n")
    return found


def units(literal):
    escape = re.compile(r"\\(?:u+([0-9a-fA-F]{4})|([0-7]{1,3})|(.))")
    one = lambda m: chr(int(m[1], 16)) if m[1] else chr(int(m[2], 8)) if m[2] else SIMPLE.get(m[3], m[3])
    return escape.sub(one, literal[1:-1])


def classes(words):
    return LIBRARY + [words[i + 1] for i, word in enumerate(words[:-1]) if word in ("class", "interface")]


def fixed_texts(words):
    found = [": "]
    for word in words:
        if word.startswith('"') and units(word) not in found:
            found.append(units(word))
    return found


class Event:
    """The parts of an event that stand before its uses."""

    def __init__(self, payload):
        self.kind, self.site, _, _, self.what = struct.unpack(">BIIII", payload[:17])
        slot = {0: 1, 1: 9, 2: 5, 3: 9, 4: 9}[payload[17]]
        self.tag, self.value = payload[17 + slot], payload[18 + slot :]

    def number(self):
        return int.from_bytes(self.value[:4], "big")

    def units(self):
        return self.value[4 : 4 + 2 * self.number()].decode("utf-16-be", "surrogatepass")


def printed(event, events, texts):
    size = {2: 1, 3: 2, 4: 2, 5: 4, 6: 8}.get(event.tag)
    if event.tag == 0:
        return ""
    if event.tag == 1:
        return "true" if event.value[0] else "false"
    if event.tag == 4:
        return chr(int.from_bytes(event.value[:2], "big"))
    if size:
        return str(int.from_bytes(event.value[:size], "big", signed=True))
    return {7: lambda: "null", 9: lambda: events[event.number()].units(), 10: lambda: texts[event.number()]}[event.tag]()


def verdict(stop, last, events, names, lines):
    if stop != 1:
        return LINES[stop]
    thrown = events[last]
    of = (events[thrown.number()].what & 0xFFFFFF) - 16
    name = f"java.lang.{names[of]}" if of < FIRST_CLASS else names[of]
    return f"uncaught {name}, " + (f"line {lines[thrown.site]}" if thrown.site < 2**31 else "library")


def main(path):
    with open(path, "rb") as file:
        data = file.read()
    events, source, end = [], "", b""
    for kind, payload, at in frames(data):
        if kind == b"H":
            skipped = 8 + int.from_bytes(payload[4:8], "big")
            source = payload[skipped + 4 :].decode()
        elif kind == b"E":
            events.append(Event(payload))
        elif kind == b"T":
            end = payload
        elif kind == b"S":
            assert payload == hashlib.sha256(data[:at]).digest()
    found = tokens(source)
    words, lines = [word for word, _ in found], [line for _, line in found]
    texts, text = fixed_texts(words), ""
    for event in events:
        if event.kind == PRINT:
            assert words[event.site] == "("
            text += printed(event, events, texts) + ("\n" if words[event.site - 1] == "println" else "")
    stop, last, _, count, _, written = struct.unpack(">BIIIII", end)
    output = text.encode("utf-16-be", "surrogatepass").decode("utf-16-be", "replace").encode()
    assert count == len(events) and written == len(output)
    between = b"" if not output or output.endswith(b"\n") else b"\n"
    sys.stdout.buffer.write(output + between + f"-- {verdict(stop, last, events, classes(words), lines)}\n".encode())


if __name__ == "__main__":
    main(sys.argv[1])
