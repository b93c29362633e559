"""What the scripts of tests/ that type at a terminal share."""

import os
import pty
import re
import select
import signal
import termios
import time


def typed_at_a_terminal(tries, words, lines, program=None, kind="xterm"):
    """What a terminal of 30 rows and 80 columns is sent while these lines are typed, each when nothing more comes. What
    can be called among them is done in its turn."""
    child, terminal = pty.fork()
    if not child:
        termios.tcsetwinsize(0, (30, 80))
        os.chdir(tries.home)
        os.environ["TERM"] = kind
        os.execv(program or tries.program, [program or tries.program, *words])
    told, left, until = b"", list(lines), time.time() + 60
    while time.time() < until:
        if select.select([terminal], [], [], 0.5 if told else 5)[0]:
            try:
                part = os.read(terminal, 65536)
            except OSError:
                break
            if not part:
                break
            told += part
        elif left:
            line = left.pop(0)
            if callable(line):
                line()
            else:
                os.write(terminal, line)
        elif b"finished" in told:
            break
    else:
        os.kill(child, signal.SIGKILL)
    os.waitpid(child, 0)
    return told


def drawings_in(told):
    """The drawings in what a terminal was sent."""
    # what is typed then comes after the order that puts the cursor in its place
    found = (re.match(rb"(?s).*?\x1b\[\d+;\d+H(?!\x1b\[2K|\x1b\[J|\n)", it) for it in told.split(b"\x1b[0m\x1b[H")[1:])
    return [it[0] for it in found if it]


def laid(sent):
    """The rows of a terminal of 30 rows and 80 columns after a drawing, which parts are in reverse, and where the cursor
    is. The terminal wraps late: after a full line the cursor is in the last column."""
    rows, marks = [[" "] * 80 for _ in range(30)], set()
    row = column = 0
    reverse = False
    for order, letter in re.findall(r"\x1b\[([\d;]*[A-Za-z])|([^\x1b])", sent.decode()):
        if order.endswith("H"):
            row, column = (int(it) - 1 for it in (order[:-1] or "1;1").split(";"))
            row, column = min(row, 29), min(column, 79)
        elif order in ("K", "J", "2K"):
            first = 0 if order == "2K" else min(column, 79)
            for number in range(row, 30 if order == "J" else row + 1):
                for place in range(first if number == row else 0, 80):
                    rows[number][place] = " "
        elif order.endswith("m"):
            reverse = order == "7m"
        elif letter == "\n":
            if row == 29:
                rows = rows[1:] + [[" "] * 80]
                marks = {(it - 1, place) for it, place in marks}
            row = min(29, row + 1)
        elif letter == "\r":
            column = 0
        elif letter:
            if column == 80:
                row, column = min(29, row + 1), 0
            rows[row][column] = letter
            (marks.add if reverse else marks.discard)((row, column))
            column += 1
    return ["".join(it).rstrip() for it in rows], marks, (row, column)


def typed_at_each_drawing(tries, words, lines, seconds=300):
    """What a terminal of 30 rows and 80 columns is sent while these lines are typed, each once the drawing that asks
    for it is whole, however long that takes."""
    child, terminal = pty.fork()
    if not child:
        termios.tcsetwinsize(0, (30, 80))
        os.chdir(tries.home)
        os.environ["TERM"] = "xterm"
        os.execvp(words[0], words)
    told, count, until = b"", 0, time.time() + seconds
    while time.time() < until:
        if select.select([terminal], [], [], 0.1)[0]:
            try:
                part = os.read(terminal, 65536)
            except OSError:
                break
            told += part
        elif count < len(lines) and len(drawings_in(told)) > count:
            os.write(terminal, lines[count])
            count += 1
    else:
        os.kill(child, signal.SIGKILL)
    os.waitpid(child, 0)
    os.close(terminal)
    return told
