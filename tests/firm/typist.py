#!/usr/bin/env python3
"""Types the firm's day, and a form over fields, at a terminal: once without a mistake, and once with mistakes of each
kind. The tables must be the same, byte for byte, and nothing may be lost of what was typed right.

A cursor key, a text that is too long, letters for a number, a date that is none and a number that a field can't hold
are asked for again by the terminal, and the journal hasn't got them. A quantity that the firm's program can't take is
asked for again by the program. Prints how many checks passed, failed and were skipped.

    tests/firm/typist.py PROGRAM"""

import os
import shutil
import subprocess
import sys
import tempfile

sys.dont_write_bytecode = True
TOP = os.path.dirname(os.path.dirname(os.path.dirname(os.path.realpath(__file__))))
sys.path[:0] = [f"{TOP}/tests"]

import files
import harness
from terminal import typed_at_each_drawing

SOURCES = "DAY.PRG ENTRY.PRG POST.PRG REPORT.PRG REORDER.PRG PRICES.PRG".split()
END = ["\x04", "END"]
with open(f"{TOP}/examples/firm/day.txt", encoding="ascii") as typed:
    DAY = typed.read().splitlines()
# Before each line of the day: what the terminal asks for again, and what the program does.
AT_TERMINAL = (["m0\x1b[D3", "customer"], ["paintred", "paint\x1b[C"], ["five", "5x"]) * 4
BY_PROGRAM = {2: ["100000"], 5: ["0", "2.5"], 8: ["-1"], 11: ["1000000"]}
# A form over fields of each kind: a text of six bytes, a number of three digits, and a date.
FORM = """USE DUE
APPEND BLANK
@ 1,0 SAY "Who" GET WHO
@ 2,0 SAY "Qty" GET QTY
@ 3,0 SAY "Day" GET DAY
READ
"""
FIELDS = [("WHO", "C", 6, 0), ("QTY", "N", 3, 0), ("DAY", "D", 8, 0)]
FORM_LINES = ["anna", "999", "02/28/86"]
FORM_MISTAKES = (["too long a text", "an\x1b[D", "an\tna"], ["1000", "-100", "ten", "1\x1b[A"],
                 ["02/30/86", "13/01/86", "tomorrow"])


class Typist(harness.Count):
    """A folder for each session, and the program."""

    def __init__(self, program, room):
        super().__init__()
        self.program, self.room, self.home = program, room, None

    def folder(self, name):
        self.home = f"{self.room}/{name}"
        shutil.copytree(f"{TOP}/examples/firm", self.home)
        return self.home

    def compiled(self, *words):
        ran = subprocess.run([self.program, "compile", *words], cwd=self.home, capture_output=True, check=False)
        self.is_same(f"compile {words}", (ran.returncode, ran.stderr), (0, b""))

    def session(self, code, lines):
        """Types a session, and returns what the terminal was sent, the journal's lines, and the tables and indexes."""
        words = [self.program, "operate", code, "--journal", "typed", "--today", "1985-01-15", "--window", "30x80"]
        sent = typed_at_each_drawing(self, words, [it.encode() if it == END[0] else f"{it}\n".encode() for it in lines])
        with open(f"{self.home}/typed", encoding="utf-8") as it:
            journal = it.read().splitlines()
        found = {}
        for name in sorted(os.listdir(self.home)):
            if name.endswith((".DBF", ".NDX")):
                with open(f"{self.home}/{name}", "rb") as it:
                    found[name] = it.read()
        return sent, journal, found


def with_mistakes(lines, *mistakes):
    """The lines, each after its mistakes."""
    return [it for number, line in enumerate(lines) for it in (*sum((of[number] for of in mistakes), []), line)]


def day(tries):
    """The firm's day."""
    by_program = [BY_PROGRAM.get(number, []) for number in range(len(DAY))]
    sessions = []
    for name, lines in ("perfect", DAY), ("mistaken", with_mistakes(DAY, AT_TERMINAL, by_program)):
        tries.folder(f"day-{name}")
        tries.compiled("FIRM.DCL", "DAY.XBC", *SOURCES)
        sessions.append(tries.session("DAY.XBC", [*lines, *END]))
    (sent, journal, perfect), (other, typed, mistaken) = sessions
    tries.holds(b"finished 1278" in sent, f"the day of a perfect typist: {sent[-200:]!r}")
    tries.holds(b"finished " in other, f"the day typed with mistakes: {other[-200:]!r}")
    tries.is_same("a perfect typist's journal", journal, DAY)
    tries.is_same("the journal of the day typed with mistakes", typed, with_mistakes(DAY, by_program))
    tries.is_same("the tables that differ", [it for it in perfect if perfect[it] != mistaken.get(it)], [])
    tries.is_same("the tables and indexes", list(mistaken), list(perfect))


def form(tries):
    """A form over fields."""
    sessions = []
    for name, lines in ("perfect", FORM_LINES), ("mistaken", with_mistakes(FORM_LINES, FORM_MISTAKES)):
        tries.folder(f"form-{name}")
        for file, data in ("DUE.DBF", files.table(FIELDS, [])), ("DUE.DCL", b"TABLE DUE\n"), ("DUE.PRG", FORM.encode()):
            with open(f"{tries.home}/{file}", "wb") as it:
                it.write(data)
        tries.compiled("DUE.DCL", "DUE.XBC", "DUE.PRG")
        sessions.append(tries.session("DUE.XBC", lines))
    (sent, journal, perfect), (other, typed, mistaken) = sessions
    tries.holds(b"finished" in sent and b"finished" in other, f"a form typed with mistakes: {other[-200:]!r}")
    tries.is_same("the journals", (journal, typed), (FORM_LINES, FORM_LINES))
    tries.holds(perfect["DUE.DBF"].endswith(b" anna  99919860228\x1a"), f"a record of {perfect['DUE.DBF'][-20:]!r}")
    tries.is_same("the tables of a form", mistaken, perfect)


def not_for_ever(tries):
    """At the end of the input, or after three quantities that can't be, the order is given up, which is shown."""
    tries.folder("given-up")
    tries.compiled("FIRM.DCL", "DAY.XBC", *SOURCES)
    for what, lines, wanted in (("the input ends", "m03\npaintr\n", "No quantity of Paint, red"),
                                ("three times", "m03\npaintr\n0\n100000\n1.5\n", "No quantity of Paint, red"),
                                ("the third time", "m03\npaintr\n0\nsome\n7\n", "Order 3: Paint, red")):
        ran = subprocess.run([tries.program, "run", "DAY.XBC", "--rehearse"], cwd=tries.home, input=lines.encode(),
                             capture_output=True, check=False)
        rows = ran.stdout.decode().splitlines()
        tries.holds(ran.returncode == 0 and any(wanted in it for it in rows), f"{what}: {ran.stderr!r} {rows}")


def main(words):
    harness.answer_help()
    with tempfile.TemporaryDirectory() as room:
        tries = Typist(words[0], room)
        for part in (day, form, not_for_ever):
            part(tries)
    return tries.verdict()


if __name__ == "__main__":
    sys.exit(main(sys.argv[1:]))
