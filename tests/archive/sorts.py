"""Makes a folder of tables and indexes of all sorts in the current folder."""

import files


def write(name, content):
    with open(name, "wb") as it:
        it.write(content)


def people(rows):
    """A table of last and first names."""
    return files.table([("LAST", "C", 6, 0), ("FIRST", "C", 4, 0)], [b" " + row for row in rows])


def index(expression, length, rows):
    """An index of the rows' first bytes, in capitals where the expression says so."""
    return files.index(expression, length, [(number, row[:length]) for number, row in enumerate(rows, 1)])


ONE = files.texts("NAME", 4, ["Ann", "Bob"])
write("ONE.DBF", ONE)
write("cust.dbf", ONE)
write("no name.DBF", ONE)
write("M.DBF", ONE)
write(b"caf\351.DBF", ONE)
write("MEMO83.DBF", b"\x83" + ONE[1:])
write("VER4.DBF", b"\x04" + ONE[1:])
write("CUT.DBF", ONE[:-5])
write("LOW.DBF", files.texts("code", 3, ["A1", "B2"]))

TWO = [b"Lee   Ann ", b"Moe   Bob "]
AGAIN = [b"Poe   Ida ", b"Ray   Jon "]
write("TWO.DBF", people(TWO))
write("TWOAGAIN.DBF", people(AGAIN))
write("BYROWS.NDX", index("LAST", 6, TWO))
write("BYROWS2.NDX", index("LAST", 6, AGAIN))
write("MANY.NDX", index("LAST", 6, TWO[:1]))
write("BOTH.NDX", index("UPPER(LAST)+FIRST", 10, [row[:6].upper() + row[6:] for row in TWO]))

write("SMALL.NDX", index("CODE", 3, [b"A1 ", b"B2 "]))
write("small.ndx", index("CODE", 3, [b"A1 ", b"B2 "]))
write("STALE.NDX", index("NAME", 4, [b"Ann "]))
write("SPACED.NDX", index("name ", 4, [b"Ann ", b"Bob "]))
write("LONG.NDX", index("NAME", 5, [b"Ann  "]))
write("NONE.NDX", index("TOWN", 4, [b"Oslo"]))
write("CUT.NDX", index("NAME", 4, [b"Ann "])[:100])
NUMBERS = bytearray(index("NAME", 4, [b"Ann "]))
NUMBERS[16] = 1
write("NAMES.NDX", bytes(NUMBERS))
