"""Makes the tables that tests/archive/run lists, and what it wants of their letters, in the current folder."""

import files

LETTERS = bytes(range(128, 256))


def write(name, content):
    with open(name, "wb") as it:
        it.write(content)


def cells():
    columns = [("NAME", "C", 14, 0), ("SUM", "N", 8, 2), ("DAY", "D", 8, 0), ("PAID", "L", 1, 0)]
    rows = [
        b" " + b'Aune "Boats"  ' + b"    1.50" + b"19850115" + b"T",
        b"*" + b" two\nlines    " + b"********" + b"        " + b"?",
        b" " + b"              " + b"-3.00   " + b"19850230" + b"y",
        b" " + b"a             " + b"    0.00" + b"1985011 " + b" ",
    ]
    write("CELLS.DBF", files.table(columns, rows))
    write("EMPTY.DBF", files.table([("NAME", "C", 4, 0)], []))


def letters():
    """A table of all letters that aren't ASCII, sixteen in a row."""
    rows = [LETTERS[first:first + 16] for first in range(0, 128, 16)]
    write("LETTERS.DBF", files.table([("TEXT", "C", 16, 0)], [b" " + row for row in rows]))
    lines = b"TEXT C 16 0\nrecords 8\n" + b"".join(b"%7d   %s\n" % (number, row) for number, row in enumerate(rows, 1))
    csv = b"DELETED,TEXT\n" + b"".join(b"," + row + b"\n" for row in rows)
    write("bytes.csv", csv)
    for page in ("cp437", "cp850"):
        write(f"{page}.csv", csv.decode(page).encode())
        write(f"{page}.txt", lines.decode(page).encode())


cells()
letters()
