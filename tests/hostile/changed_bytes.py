"""Files cut at every length and changed at every byte: small tables, their indexes, codes, declarations and command
files."""

import multiprocessing
import os
import struct
import subprocess
import tempfile

import refused_memory
from refused_memory import contents, put_files
from worked import CASES, Case, LETTERS

DBRUN = None
PROGRAM = None
# Places that one task tries, and the seconds that it may take.
PLACES, SECONDS = 64, 300
WITH_INDEX = ("a table with an index", "an index")

EVERY_ITEM = Case(
    'X = 2\nUSE T INDEX KI\nSELECT 2\nUSE U INDEX UI, UJ\nSET FILTER TO N > X .AND. .NOT. DELETED()\n'
    'GO TOP\nDO WHILE .NOT. EOF()\n? N, D, L, C\nSKIP\nENDDO\nACCEPT "? " TO A\n'
    'REPLACE C WITH A, D WITH CTOD("02/29/88")\n'
    'DO P\nSEEK "B"\n? FOUND(), RECNO()\nSELECT 1\n? DATE()\nIF X > 1\nUSE\nENDIF\n? X\n', "", "",
    "TABLE T\nINDEX KI ON T KEY K\nTABLE U\nINDEX UI ON U KEY C\nINDEX UJ ON U KEY UPPER(C)+C\n")
PROCEDURE = (
    b"SET FILTER TO\nSET ORDER TO 2\nGO BOTTOM\nAPPEND BLANK\n"
    b"REPLACE N WITH 3, L WITH .T.\nDELETE\nPACK\nRETURN\n")
# Behind it nothing is known of a work area, which only version 2 can say.
BRANCH = "IF X > 1\nUSE\nENDIF\n"


def set_programs(dbrun, program):
    """Names the programs, in each process anew."""
    global DBRUN, PROGRAM
    DBRUN, PROGRAM = dbrun, program
    refused_memory.set_programs(dbrun, program)


def run(folder, *words, typed=b""):
    """Runs the built program."""
    return subprocess.run([DBRUN, *words], cwd=folder, input=typed, capture_output=True, timeout=60, check=False)


def of_case(name):
    """A case's files, its code and its declarations among them, before its run and behind it."""
    with tempfile.TemporaryDirectory() as folder:
        put_files(folder, CASES[name])
        before = contents(folder)
        run(folder, "run", "M.XBC", "--budget", str(CASES[name].budget))
        behind = contents(folder)
    before["CODE"] = behind["CODE"] = before["M.XBC"]
    return before, behind


def of_every_item(version):
    """The files of a code with every item, of this version."""
    from files import table

    columns = [("C", "C", 3, 0), ("N", "N", 5, 2), ("D", "D", 8, 0), ("L", "L", 1, 0)]
    rows = [b" B   1.0019880229T", b"*A   2.00        F", b" C   3.5020000101 "]
    rows = [row[:1] + row[1:4].ljust(3) + row[4:].rjust(14) for row in rows]
    files = {"T.DBF": LETTERS, "U.DBF": table(columns, [row[:18].ljust(18) for row in rows])}
    source = EVERY_ITEM.source if version == 2 else EVERY_ITEM.source.replace(BRANCH, "")
    files.update({"M.DCL": EVERY_ITEM.declarations.encode(), "M.PRG": source.encode(), "P.PRG": PROCEDURE})
    with tempfile.TemporaryDirectory() as folder:
        for name, content in files.items():
            with open(os.path.join(folder, name), "wb") as it:
                it.write(content)
        done = run(folder, "compile", "M.DCL", "M.XBC", "M.PRG", "P.PRG")
        if done.returncode:
            raise SystemExit(f"the code of every item isn't compiled: {done.stderr}")
        files["CODE"] = contents(folder)["M.XBC"]
    if files["CODE"][4] != version:
        raise SystemExit(f"the code of every item has version {files['CODE'][4]}")
    return files


def bundle(files):
    """What the program reads."""
    return b"".join(bytes([len(name)]) + name.encode() + struct.pack("<I", len(it)) + it for name, it in files.items())


def sweep(work):
    """Tries some places of a file. What was wrong, and the counts."""
    title, files, target, numbers, first, last = work
    numbers = {**numbers, "FROM": first, "TO": last}
    given = {**files, "TARGET": target.encode(), **{name: struct.pack("<I", it) for name, it in numbers.items()}}
    room = f"{title}, places {first} to {last}"
    try:
        done = subprocess.run([PROGRAM], input=bundle(given), capture_output=True, timeout=SECONDS, check=False)
    except subprocess.TimeoutExpired:
        return title, [f"{room}: no end"], []
    lines = done.stdout.decode().splitlines()
    if done.returncode or not lines:
        return title, [f"{room}: status {done.returncode} {done.stderr.decode(errors='replace')[-400:]}"], []
    return title, [f"{room}: {line}" for line in lines[:-1]], [int(it.split()[0]) for it in lines[-1].split(", ")]


def works(seed):
    """What is tried: a title, the files, the name of the changed one, and numbers; seed 0 tries all values."""
    with_index = of_case("a stale index is made anew")[1]
    chosen = {"SEED": seed}
    customers = of_case("a customer is added")[1]
    with open(os.path.join(refused_memory.EXAMPLES, "three-rows.xbc"), "rb") as it:
        yield "the code of three rows", {"CODE": it.read()}, "CODE", chosen
    yield "a table of one record", customers, "CUST.DBF", chosen
    yield WITH_INDEX[0], with_index, "T.DBF", chosen
    yield WITH_INDEX[1], with_index, "KI.NDX", chosen
    yield "a code with tables", with_index, "CODE", chosen
    for version in (1, 2):
        yield f"a code with every item, version {version}", of_every_item(version), "CODE", chosen
    for name, title in (("M.DCL", "declarations"), ("M.PRG", "commands")):
        yield title, with_index, name, {**chosen, "COMPILES": 1}


def answers():
    """Each file that is cut, the command that reads it, and what is told at which lengths."""
    _, behind = of_case("a customer is added")
    _, indexed = of_case("a stale index is made anew")
    with open(os.path.join(refused_memory.EXAMPLES, "three-rows.xbc"), "rb") as it:
        code = it.read()
    yield "verify", "C.XBC", code + b"\0", ((3, "Magic"), (5, "Version"), (215, "Short"), (216, None), (217, "Extra"))
    yield "list", "CUST.DBF", behind["CUST.DBF"], ((64, "Short"), (75, "Truncated"), (77, None))
    yield "index", "KI.NDX", indexed["KI.NDX"], ((511, "Head"), (1023, "Reach"), (1024, None))


def cut(work):
    """Cuts a file at each length. What was told otherwise than it should be."""
    command, name, content, told = work
    wrong = []
    with tempfile.TemporaryDirectory() as folder:
        for length in range(len(content) + 1):
            wanted = next(word for most, word in told if length <= most)
            with open(os.path.join(folder, name), "wb") as it:
                it.write(content[:length])
            done = run(folder, command, name)
            said = f"refused {name} {wanted}\n".encode() if wanted else b""
            if done.returncode != (2 if wanted else 0) or done.stderr != said:
                wrong.append(f"{command} {name} cut to {length} bytes: status {done.returncode} {done.stderr}")
    return f"{command} {name} at {len(content) + 1} lengths", wrong, []


def task(work):
    """One part of the work."""
    return cut(work) if len(work) == 4 else sweep(work)


def check(dbrun, program, jobs, seed):
    """All parts. What was wrong."""
    set_programs(dbrun, program)
    tasks = [(*work, first, min(first + PLACES, len(work[1][work[2]])))
             for work in works(seed) for first in range(0, len(work[1][work[2]]), PLACES)]
    wrong, counts = [], {}
    with multiprocessing.Pool(jobs, set_programs, (dbrun, program)) as pool:
        for title, faults, numbers in pool.imap_unordered(task, [*answers(), *tasks]):
            wrong += faults
            old = counts.get(title, [0] * len(numbers))
            counts[title] = [one + other for one, other in zip(old, numbers)]
    for title, numbers in counts.items():
        if numbers and not numbers[0]:
            wrong.append(f"{title}: no run")
        if title in WITH_INDEX and not numbers[3]:
            wrong.append(f"{title}: no index was loaded fresh")
        words = ("run", "not accepted", "refused", "with a fresh index")
        print(f"  {title}" + "".join(f", {number} {word}" for number, word in zip(numbers, words)))
    return wrong
