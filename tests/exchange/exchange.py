"""Exchanges tables and indexes with other tools: exchange.py DBRUN KEYS, in an empty folder."""

import datetime
import os
import random
import subprocess
import sys

import dbf
import dbfread

sys.dont_write_bytecode = True
sys.path.append(os.path.dirname(os.path.dirname(os.path.realpath(__file__))))
import harness

DBRUN, KEYS = sys.argv[1:3]

# The lengths at which libxbase64 lays out its indexes as others do.
LENGTHS = (8, 24, 32, 36, 40, 44, 52, 56, 60, 68, 72, 80, 84, 88, 96, 100)

DECLARED = "TABLE T\nINDEX KI ON T KEY K\n"

# Every row is changed, the second is marked, and one is added.
CHANGES = """USE T
INDEX ON K TO KI
SCAN
REPLACE N WITH N + 1.5, L WITH .NOT. L, D WITH D + 1
ENDSCAN
GO 2
DELETE
APPEND BLANK
REPLACE K WITH "zz", N WITH -1, D WITH CTOD("02/29/88"), L WITH .T.
"""

tries = harness.Count()


def write(name, text):
    with open(name, "w", encoding="ascii") as it:
        it.write(text)


def dbrun(*words):
    """Runs the program; its standard output, or an end where it refuses."""
    done = subprocess.run([DBRUN, *words], stdin=subprocess.DEVNULL, capture_output=True, check=False)
    if done.returncode != 0:
        sys.exit(f"dbrun {' '.join(words)}: {done.stderr.decode()}")
    return done.stdout.decode("latin-1")


def make(width, rows):
    """A table of python3-dbf, of texts K, numbers N, days D and truth values L."""
    table = dbf.Table("T.DBF", f"K C({width}); N N(8,2); D D; L L", dbf_type="db3")
    table.open(mode=dbf.READ_WRITE)
    for row in rows:
        table.append(row)
    table.close()


def rows_of(count, width, seed):
    chance = random.Random(seed)
    first = datetime.date(1980, 1, 1)
    return [
        (
            "".join(chance.choice("ABCDEFGHIJ") for _ in range(min(width, 6))),
            chance.randrange(-9999, 9999) / 100,
            first + datetime.timedelta(chance.randrange(4000)),
            chance.random() < 0.5,
        )
        for _ in range(count)
    ]


def changed(rows):
    """The rows behind the changes: what stands in them, and which are marked."""
    day = datetime.timedelta(1)
    new = [(k, round(n + 1.5, 2), d + day, not l) for k, n, d, l in rows]
    new.append(("zz", -1.0, datetime.date(1988, 2, 29), True))
    return new, [place == 1 for place in range(len(new))]


def tables():
    """Tables there and back."""
    rows = rows_of(300, 10, 1)
    make(10, rows)
    write("T.DCL", DECLARED)
    write("T.PRG", CHANGES)
    dbrun("compile", "T.DCL", "T.XBC", "T.PRG")
    dbrun("run", "T.XBC", "--today", "1988-03-01")
    wanted, marks = changed(rows)
    live = [row for row, marked in zip(wanted, marks) if not marked]
    gone = [row for row, marked in zip(wanted, marks) if marked]

    def of_dbfread(records):
        return [(r["K"].rstrip(), float(r["N"]), r["D"], r["L"]) for r in records]

    read = dbfread.DBF("T.DBF", load=True, encoding="latin-1")
    tries.is_same("dbfread, live rows", of_dbfread(read.records), live)
    tries.is_same("dbfread, marked rows", of_dbfread(read.deleted), gone)
    tries.is_same("dbfread, stamp", read.date, datetime.date(1988, 3, 1))
    table = dbf.Table("T.DBF", dbf_type="db3")
    table.open()
    tries.is_same("python3-dbf, rows", [(r.k.rstrip(), float(r.n), r.d, r.l) for r in table], wanted)
    tries.is_same("python3-dbf, marks", [dbf.is_deleted(r) for r in table], marks)
    table.close()
    shown = subprocess.run(["dbview", "-b", "T.DBF"], capture_output=True, check=True).stdout.decode("latin-1")
    keys = [line.split(":")[0].rstrip() for line in shown.splitlines()]
    tries.is_same("dbview, live rows", keys, [row[0] for row in live])
    order = sorted(range(1, len(wanted) + 1), key=lambda r: (wanted[r - 1][0].ljust(10).encode(), r))
    listed = [int(line[:7]) for line in dbrun("index", "KI.NDX").splitlines()[1:]]
    tries.is_same("own listing of the index", listed, order)


def our_index(length, count):
    """An index that the program saved, read by libxbase64."""
    rows = rows_of(count, length, length)
    make(length, rows)
    write("O.PRG", "USE T\nINDEX ON K TO KI\n")
    dbrun("compile", "T.DCL", "O.XBC", "O.PRG")
    dbrun("run", "O.XBC")
    order = sorted(range(1, count + 1), key=lambda r: (rows[r - 1][0].ljust(length).encode(), r))
    read = subprocess.run([KEYS, "list", "T.DBF", "KI.NDX"], capture_output=True, check=False)
    tries.is_same(f"libxbase64 reads keys of {length}", [int(line) for line in read.stdout.split()], order)


def their_index(length, count):
    """An index of libxbase64, read by the program."""
    keys = [row[0] for row in rows_of(count, length, length + 1)]
    subprocess.run([KEYS, "make", str(length)], input="\n".join(keys).encode() + b"\n", check=True)
    lines = dbrun("index", "OTHER.NDX").splitlines()
    tries.is_same(f"head of an index of libxbase64, keys of {length}", lines[0], f"K {length}")
    found = [(line[8:].rstrip(), int(line[:7])) for line in lines[1:]]
    wanted = sorted((key, number) for number, key in enumerate(keys, 1))
    tries.is_same(f"keys of libxbase64, of {length}", sorted(found), wanted)
    tries.is_same(f"order of libxbase64's keys of {length}", [key for key, _ in found], [key for key, _ in wanted])


tables()
for each in LENGTHS:
    most = 504 // (8 + -(-each // 4) * 4)
    our_index(each, 200)
    # (libxbase64 loses pages where it splits one that isn't a leaf, so its root alone stands above the leaves)
    their_index(each, min(most * most // 2, 200))
sys.exit(tries.verdict())
