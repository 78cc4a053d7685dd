"""What `whylens expect` has to write, by what other commands wrote of the same trace. Called by expects.sh: OUTPUT EVENTS QUESTIONS SOURCE FILE.
Prints the first lines, and behind them `show eN`, the event whose answer follows, or a line `whynot LINE.PLACE` for each statement whose answer
follows. Each source line of a test has one kind of print."""
import json
import re
import sys


def plain(text):
    text = text.replace(b"\r", b"")
    return text if not text or text.endswith(b"\n") else text + b"\n"


def line_at(text, at):
    front = text[:at].rsplit(b"\n", 1)[-1]
    rest = text[at:]
    return b"nothing" if not front and not rest else b'"' + front + rest.split(b"\n", 1)[0] + b'"'


def beside(expected, found):
    at = next((n for n, (a, b) in enumerate(zip(expected, found)) if a != b), min(len(expected), len(found)))
    out = sys.stdout.buffer
    out.write(b"line %d of the output is not as expected\n" % (1 + expected[:at].count(b"\n")))
    out.write(b"expected: " + line_at(expected, at) + b"\nfound:    " + line_at(found, at) + b"\n")
    out.flush()


def prints(events, source):
    """Each print with what it wrote."""
    for event in events:
        match = re.match(r"#(\d+) line (\d+) print ?(.*)$", event)
        if match:
            text = match[3]
            if text.startswith('"'):
                text = json.loads(text)
            elif text.startswith("'"):
                text = json.loads('"' + text[1:-1].replace('"', '\\"') + '"')
            elif text.startswith("char "):
                text = chr(int(text[5:]))
            yield int(match[1]), (text + ("\n" if "println" in source[int(match[2]) - 1] else "")).encode()


def main(output, events, questions, source, file):
    with open(output, "rb") as it:
        report = it.read()
    with open(events) as it:
        events = it.read().splitlines()
    with open(questions) as it:
        never = [q.split()[1] for q in it.read().splitlines() if q.startswith("whynot ")]
    with open(source) as it:
        source = it.read().splitlines()
    with open(file, "rb") as it:
        expected = plain(it.read())
    so_far = b""
    for number, text in prints(events, source):
        so_far += text
        if not expected.startswith(so_far.replace(b"\r", b"")):
            beside(expected, so_far.replace(b"\r", b""))
            print(f"show e{number}")
            return
    if expected in (plain(so_far), plain(report)):
        print("as expected")
        return
    beside(expected, plain(report))
    never = [q for q in never if "System.out.print" in source[int(q.split(".")[0]) - 1]]
    print("\n".join(f"whynot {q}" for q in never) if never else "each statement that prints began")


main(*sys.argv[1:])
