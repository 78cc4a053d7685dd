"""Folds what `whyline why` wrote by the lines of the source, as docs/lens.md says, and knows nothing of whylens.
Called by folds.sh: show SOURCE WHY [--all] [--data], or slice SOURCE WHY, or stop EVENTS, which says at which event a run stopped
that an exception ended, or that ended otherwise."""
import re
import sys

EVENT = re.compile(r"#(\d+) (?:line (\d+)|library) (.*)")


def read(path):
    with open(path, encoding="latin-1", newline="") as file:
        return file.read()


def events(path):
    """Each event's line of source, 0 in the library, its text, and whether it has a star."""
    found = []
    for text in read(path).split("\n")[:-1]:
        starred = text.endswith(" *")
        text = text[:-2] if starred else text
        found.append((int(EVENT.fullmatch(text)[2] or 0), text, starred))
    return found


def with_star(text, starred):
    return text + " *" if starred else text


def source_lines(path):
    return [""] + re.split("\r\n|\r|\n", read(path))


def show(source, answer, every, data):
    shown = [event for event in answer if event[2]] if data else answer
    last = {event[0]: i for i, event in enumerate(shown)}
    for i, (line, text, _) in enumerate(shown):
        if last[line] != i:
            continue
        here = [event for event in shown if event[0] == line]
        row = with_star(text, any(event[2] for event in here))
        there = source[line].lstrip(" \t\n\f\r") if line else ""
        yield f"{len(here):>6}x  " + (f"{row:<40} {there}" if there else row)
        if every:
            yield from (with_star(event[1], event[2]) for event in here)
    hidden = 0 if every else len(shown) - len(last)
    yield f"-- {len(shown)} events{' of the data' if data else ''} in {len(last)} lines" + (
        f", {hidden} not shown: --all lists them" if hidden else "")


def sliced(source, answer):
    some = False
    for line in range(1, len(source)):
        here = [starred for at, _, starred in answer if at == line]
        if here:
            some = True
            yield f"{line:>6}{' * ' if any(here) else '   '}{source[line]}"
    if not some:
        yield "nothing in the source"


def stop(all_events):
    throws = [i for i, event in enumerate(all_events) if EVENT.fullmatch(event[1])[3].startswith("throw")]
    return throws[-1] if throws else len(all_events) - 1


def main(words):
    if words[0] == "stop":
        lines = [str(stop(events(words[1])))]
    elif words[0] == "slice":
        lines = sliced(source_lines(words[1]), events(words[2]))
    else:
        lines = show(source_lines(words[1]), events(words[2]), "--all" in words, "--data" in words)
    sys.stdout.buffer.write("".join(line + "\n" for line in lines).encode("latin-1"))


main(sys.argv[1:])
