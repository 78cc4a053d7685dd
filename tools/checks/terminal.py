"""Plays a session at a terminal: PROGRAM WORD.., with the session on the standard input as a terminal shows it, lines that are
typed among lines that answer them. Each line is typed once all before it has been answered. The session ends with quit, or the
end of the input is typed. Ends with 1, and says where, if the program writes something else or has another status than 0."""
import os
import pty
import re
import select
import subprocess
import sys
import termios

TYPED = re.compile(rb"(ask|list|up|down|go|sources|frames|show|whynot|undo|quit)( |\n)")
SECONDS = 60
END_OF_INPUT = b"\x04"


def turns(session):
    """What is typed, and what is answered to it, one after another."""
    found = [[b"", b""]]
    for line in session.splitlines(keepends=True):
        if TYPED.match(line):
            found.append([line, b""])
        else:
            found[-1][1] += line
    if found[-1][0] != b"quit\n":
        found.append([END_OF_INPUT, b""])
    return found


def answer(screen, length):
    """So many bytes, or fewer where no more come."""
    text = b""
    while len(text) < length and select.select([screen], [], [], SECONDS)[0]:
        try:
            piece = os.read(screen, length - len(text))
        except OSError:
            break
        if not piece:
            break
        text += piece
    return text


def main():
    screen, program_side = pty.openpty()
    settings = termios.tcgetattr(program_side)
    settings[1] &= ~termios.OPOST
    settings[3] &= ~termios.ECHO
    termios.tcsetattr(program_side, termios.TCSANOW, settings)
    program = subprocess.Popen(sys.argv[1:], stdin=program_side, stdout=program_side, stderr=subprocess.DEVNULL)
    os.close(program_side)
    session = turns(sys.stdin.buffer.read())
    for typed, wanted in session:
        os.write(screen, typed)
        came = answer(screen, len(wanted))
        if came != wanted:
            program.kill()
            raise SystemExit(f"{typed!r} is answered {came!r} and not {wanted!r}")
    more = answer(screen, 1)
    if more or program.wait(SECONDS) != 0:
        raise SystemExit(f"{more!r} comes at the end, and the status is {program.returncode}")


main()
