"""Small runs over tables, with what they print and how they end."""

from files import index, table, texts

LETTERS = texts("K", 1, "ABC")
SMITHS = table([("NAME", "C", 10, 0)], [b"*SMITH     "] * 2 + [b" SMITH     "] * 28)
LONG_KEYS = texts("K", 100, ["D", "B", "A", "C"])
SEVEN = [f"S{number}" for number in range(1, 8)]
SEVEN_DECLARED = "TABLE S\n" + "".join(f"INDEX {name} ON S KEY K\n" for name in SEVEN)
# Three leaves, each of them full.
FULL_PAGES = [f"{letter}{number}" for letter in "BDF" for number in range(4)]
FULL_INDEX = index("K", 100, [(place + 1, key.encode().ljust(100)) for place, key in enumerate(FULL_PAGES)])


class Case:
    """A run: its command file and declarations, files, budget, typed lines, rows, and how it ends."""

    def __init__(self, source, rows, ended, declarations="", files=None, budget=1_000_000, typed=b""):
        self.source = source
        self.rows = rows
        self.ended = ended
        self.declarations = declarations
        self.files = files or {}
        self.budget = budget
        self.typed = typed


KEYS = "TABLE T\nINDEX KI ON T KEY K\n"

CASES = {
    "a customer is added": Case(
        'USE CUST\nAPPEND BLANK\nREPLACE NAME WITH "Ann"\n? RECNO(), EOF()\n',
        "         1 .F.\n", "finished 12", "TABLE CUST\n", {"CUST.DBF": texts("NAME", 10, [])}),
    # Records first take the place of the file's other bytes: six of them, of 11 bytes, that of its 66.
    "customers outgrow their file": Case(
        "USE CUST\n" + "APPEND BLANK\n" * 8 + "? RECCOUNT()\n",
        "         8\n", "finished 13", "TABLE CUST\n", {"CUST.DBF": texts("NAME", 10, [])}),
    "marked records are passed": Case(
        'USE P\nINDEX ON NAME TO PN\nSET DELETED ON\nSEEK "SM"\n? RECNO(), FOUND()\n',
        "         3 .T.\n", "finished 48", "TABLE P\nINDEX PN ON P KEY NAME\n", {"P.DBF": SMITHS}),
    "keys shrink": Case(
        "N = 998\nUSE T\nINDEX ON K TO KI\nSCAN\nN = N - 1\nREPLACE K WITH STR(N,5)\nENDSCAN\n",
        "", "spent 199", KEYS, {"T.DBF": texts("K", 5, ["  998", "  999"])}, 200),
    "a text is asked for": Case('ACCEPT "Name? " TO N\n? LEN(N)\n', "Name?\n         0\n", ""),
    "a number is asked for": Case(
        "X = 5\n@ 2,0 GET X\nREAD\n? X\n", "\n\n         5\n         5\n", "", typed=b"12x\n"),
    "a stale index is made anew": Case(
        'USE T\nINDEX ON K TO KI\nUSE T\nREPLACE K WITH "Z"\nUSE T INDEX KI\nSEEK "Z"\n? FOUND()\n',
        ".T.\n", "finished 23", KEYS, {"T.DBF": LETTERS}),
    "records are removed": Case(
        "USE T\nINDEX ON K TO KI\nGO 2\nDELETE\nPACK\n? RECCOUNT(), RECNO()\nREINDEX\nZAP\n? RECCOUNT(), EOF()\n",
        "         2          1\n         0 .T.\n", "finished 37", KEYS, {"T.DBF": LETTERS}),
    "the screen moves up": Case(
        'I = 1\nDO WHILE I <= 26\n? STR(I,2)\nI = I + 1\nENDDO\nCLEAR\n? "Z"\n',
        "".join(f"{number:2}\n" for number in range(1, 27)) + "Z\n", ""),
    "seven indexes are made": Case(
        f'USE S INDEX {",".join(SEVEN)}\nAPPEND BLANK\nREPLACE K WITH "BB"\n? RECNO(), RECCOUNT()\n',
        "         5          5\n", "", SEVEN_DECLARED, {"S.DBF": LONG_KEYS}),
    # The changed key splits the last leaf, and uses up what was kept for that; the record added then splits the first
    # one.
    "a page splits in seven indexes": Case(
        f'USE S INDEX {",".join(SEVEN)}\nAPPEND BLANK\nAPPEND BLANK\nGO 5\nREPLACE K WITH "F9"\nAPPEND BLANK\n'
        "? RECNO(), RECCOUNT()\n", "        15         15\n", "", SEVEN_DECLARED,
        {"S.DBF": texts("K", 100, FULL_PAGES), **{f"{name}.NDX": FULL_INDEX for name in SEVEN}}),
}
