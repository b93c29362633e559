"""Files and standard input at each limit and one past it, and what time and memory they take at two sizes.

A case names what is written into a folder, the words, what is typed, and the status and the line of standard error that
are wanted. The measures run at two sizes, of which one is twice the other: twice the file may take at most three times
as long.
"""

import os
import struct
import subprocess
import sys
import tempfile
import time

from refused_memory import EXAMPLES
from files import index_head, index_page, table, texts

DBRUN = None
FILE_LIMIT, TYPED_LIMIT = 64 << 20, 1 << 20
SECONDS = 600
# A measure below this many seconds at its smaller size says nothing of time.
LEAST = 0.2
# Runs a program from a small process, since the memory of the process that starts it counts as its own.
SPAWN = """
import resource, subprocess, sys
done = subprocess.run(sys.argv[2:], check=False)
with open(sys.argv[1], "w", encoding="ascii") as it:
    it.write(str(resource.getrusage(resource.RUSAGE_CHILDREN).ru_maxrss))
sys.exit(done.returncode)
"""


def run(files, words, typed=b""):
    """Runs the program over files: status, the last line of standard error, seconds, and the most memory in KiB."""
    with tempfile.TemporaryDirectory() as folder:
        for name, content in files.items():
            with open(os.path.join(folder, name), "wb") as it:
                it.write(content)
        paths = [os.path.join(folder, name) for name in (".in", ".err")]
        with open(paths[0], "wb") as it:
            it.write(typed)
        begun = time.time()
        with open(paths[0], "rb") as given, open(paths[1], "wb") as told:
            spawn = [sys.executable, "-S", "-c", SPAWN, os.path.join(folder, ".used"), DBRUN, *words]
            status = subprocess.run(spawn, cwd=folder, stdin=given, stdout=subprocess.DEVNULL, stderr=told,
                                    check=False).returncode
        seconds = time.time() - begun
        with open(os.path.join(folder, ".used"), encoding="ascii") as used:
            most = int(used.read())
        with open(paths[1], encoding="utf-8", errors="replace") as told:
            lines = told.read().splitlines()
    return status, lines[-1] if lines else "", seconds, most


def padded(content, length):
    """A file with bytes behind it up to a length."""
    return content.ljust(length, b"\0")


def chain(height):
    """An index file in which so many pages stand one below the other, with one pair."""
    inner = [struct.pack("<II", 0, number + 2).ljust(512, b"\0") for number in range(height - 1)]
    return index_head("K", 1, 1, height + 1) + b"".join(inner) + index_page(1, [(0, 1, b"A")], 0)


def header(place, count):
    """The header of a code file in which one of the eleven numbers is the count."""
    numbers = [1, 1, 0, 0, 0, 0, 0, 0, 1, 0, 1]
    numbers[place] = count
    return b"XBCF" + struct.pack("<11H", *numbers)


def record_of(width):
    """A table of one record of so many bytes."""
    widths = [254] * ((width - 1) // 254) + ([(width - 1) % 254] if (width - 1) % 254 else [])
    return table([(f"F{number}", "C", wide, 0) for number, wide in enumerate(widths)], [b" " * width])


def long_code(count, maps):
    """A code file of one procedure that clears the screen again and again, with so many instructions and maps."""
    state = bytes([1]) + bytes(11)
    out = b"XBCF" + struct.pack("<11H", 1, 0, 0, 0, 0, 0, 0, 0, 1, maps, count)
    out += struct.pack("<HB", count, 0) + 2 * state
    out += b"".join(struct.pack("<H", place) + state for place in range(1, maps + 1))
    return out + (b"\x45" + bytes(7)) * (count - 1) + b"\x14" + bytes(7)


def tables():
    """Tables and indexes."""
    for count, told in ((128, None), (129, "FieldShape")):
        yield {"T.DBF": table([(f"F{n}", "C", 1, 0) for n in range(count)], [])}, ["list", "T.DBF"], told
    for width, told in ((4000, None), (4001, "RecordLength")):
        yield {"T.DBF": record_of(width)}, ["list", "T.DBF"], told
    for name, told in (("N" * 10, None), ("N" * 11, "FieldShape")):
        yield {"T.DBF": texts(name, 1, ["A"])}, ["list", "T.DBF"], told
    for length, told in ((FILE_LIMIT, None), (FILE_LIMIT + 1, "TooLong")):
        yield {"T.DBF": padded(record_of(4000), length)}, ["list", "T.DBF"], told
        yield {"I.NDX": padded(chain(1), length)}, ["index", "I.NDX"], told
    past = bytearray(texts("K", 1, [""]) + b" " * 2_000_001)
    past[4:8] = struct.pack("<I", 1_000_001)
    yield {"T.DBF": bytes(past)}, ["list", "T.DBF"], "TooMany"
    for height, told in ((20, None), (21, "Depth")):
        yield {"I.NDX": chain(height)}, ["index", "I.NDX"], told


def codes():
    """Code files: a count at its limit goes on to what is missing behind the header."""
    for place, limit in ((1, 64), (2, 256), (3, 32), (4, 64), (5, 64), (6, 4096), (7, 64), (8, 256), (9, 4096)):
        for count, told in ((limit, "Short"), (limit + 1, "Limit")):
            yield {"C.XBC": header(place, count)}, ["verify", "C.XBC"], told
    yield {"C.XBC": header(10, 65535)}, ["verify", "C.XBC"], "Short"
    yield {"C.XBC": header(8, 0)}, ["verify", "C.XBC"], "Limit"
    yield {"C.XBC": header(10, 0)}, ["verify", "C.XBC"], "Limit"
    yield {"C.XBC": long_code(65535, 4096)}, ["verify", "C.XBC"], None
    with open(os.path.join(EXAMPLES, "three-rows.xbc"), "rb") as it:
        code = it.read()
    for length, told in ((FILE_LIMIT, "Extra"), (FILE_LIMIT + 1, "TooLong")):
        yield {"C.XBC": padded(code, length)}, ["verify", "C.XBC"], told


def calls(depth):
    """A command file and its procedures, in which so many calls stand open at once."""
    files = {f"P{n}.PRG": f"DO P{n + 1}\n".encode() for n in range(depth)}
    return {"D.DCL": b"", **files, f"P{depth}.PRG": b"? 1\n"}, [f"P{n}.PRG" for n in range(depth + 1)]


def sources():
    """Command files and declarations."""
    blocks = lambda count: "IF .T.\n" * count + "? 1\n" + "ENDIF\n" * count
    inside = lambda count: "? " + "(" * count + "1" + ")" * count + "\n"
    line = lambda count: "? 1" + "+1" * ((count - 3) // 2) + " " * ((count - 3) % 2) + "\n"
    for source, told in ((blocks(32), None), (blocks(33), "line 33 TooDeep"), (inside(32), None),
                         (inside(33), "line 1 TooDeep"),
                         (line(1024), None), (line(1025), "line 1 TooLong"), ("N" * 10 + " = 1\n", None),
                         ("N" * 11 + " = 1\n", "line 1 TooLong"), (f'? "{"x" * 254}"\n', None),
                         (f'? "{"x" * 255}"\n', "line 1 TooLong")):
        yield {"D.DCL": b"", "M.PRG": source.encode()}, ["compile", "D.DCL", "M.XBC", "M.PRG"], told
    for length, told in ((FILE_LIMIT, None), (FILE_LIMIT + 1, "TooLong")):
        yield {"D.DCL": b"*".ljust(length - 1) + b"\n", "M.PRG": b"? 1\n"}, ["compile", "D.DCL", "M.XBC", "M.PRG"], told
    for depth, told in ((20, None), (21, "Limit")):
        files, names = calls(depth)
        yield files, ["compile", "D.DCL", "M.XBC", *names], told
    for count, told in ((32, None), (33, "line 33 Limit")):
        declared = "".join(f"TABLE T{n}\n" for n in range(count)).encode()
        shared = {f"T{n}.DBF": texts("K", 1, []) for n in range(count)}
        yield {"D.DCL": declared, "M.PRG": b"? 1\n", **shared}, ["compile", "D.DCL", "M.XBC", "M.PRG"], told
    for count, told in ((64, None), (65, "line 66 Limit")):
        declared = ("TABLE T\n" + "".join(f"INDEX I{n} ON T KEY K\n" for n in range(count))).encode()
        yield {"D.DCL": declared, "M.PRG": b"? 1\n", "T.DBF": texts("K", 1, [])}, ["compile", "D.DCL", "M.XBC",
                                                                                   "M.PRG"], told


def limits():
    """What is told otherwise than it should be, at each limit and past it."""
    wrong = []
    for files, words, told in [*tables(), *codes(), *sources()]:
        status, said, *_ = run(files, words)
        if status != (2 if told else 0) or (told and not said.endswith(f" {told}")):
            sizes = {name: len(content) for name, content in files.items()}
            wrong.append(f"{words} with {str(sizes)[:200]}: status {status}, {said}, not {told}")
    with open(os.path.join(EXAMPLES, "three-rows.xbc"), "rb") as it:
        code = {"C.XBC": it.read()}
    for length, status, told in ((TYPED_LIMIT, 0, "finished 30"), (TYPED_LIMIT + 1, 2, "refused - TooLong")):
        found = run(code, ["run", "C.XBC"], b"\n" * length)
        if found[:2] != (status, told):
            wrong.append(f"{length} typed bytes: {found}")
    return wrong


def of_rows(count):
    """A table of so many records, in no order of their keys."""
    return texts("K", 10, [f"{number * 7919 % count:010}" for number in range(count)])


def measures(scale):
    """What is measured: a title, the file that counts, the other files, and the words, at a size."""
    # A constant is sought among those that are there, of which a code has 4,096 at most: with few of them, time goes by
    # the file.
    opened = {"D.DCL": b"TABLE T\nINDEX KI ON T KEY K\n", "M.PRG": b"USE T INDEX KI\n", "T.DBF": texts("K", 10, [])}
    rows = of_rows(20_000 * scale)
    lines = "".join(f"X = {number % 7}\n" for number in range(2_000 * scale)).encode()
    comments = b"* a line that says nothing\n" * (20_000 * scale)
    code = long_code(4000 * scale, 256 * scale)
    yield "verify", "C.XBC", {"C.XBC": code}, ["verify", "C.XBC"]
    yield "list of a table", "T.DBF", {"T.DBF": rows}, ["list", "T.DBF"]
    yield "run that makes an index", "T.DBF", {**opened, "T.DBF": rows}, ["run", "M.XBC"]
    yield "compile", "B.PRG", {"D.DCL": b"", "B.PRG": lines}, ["compile", "D.DCL", "M.XBC", "B.PRG"]
    yield "compile of comments", "B.PRG", {"D.DCL": b"", "B.PRG": comments}, ["compile", "D.DCL", "M.XBC", "B.PRG"]


def compiled(files):
    """The files with their code, where a run wants one."""
    if "M.PRG" not in files:
        return files
    with tempfile.TemporaryDirectory() as folder:
        for name, content in files.items():
            with open(os.path.join(folder, name), "wb") as it:
                it.write(content)
        subprocess.run([DBRUN, "compile", "D.DCL", "M.XBC", "M.PRG"], cwd=folder, check=True)
        with open(os.path.join(folder, "M.XBC"), "rb") as it:
            return {**files, "M.XBC": it.read()}


def compare(scale):
    """Prints what two sizes take. What takes more than three times as long at the greater one."""
    wrong = []
    nothing = run({}, ["list", "NONE"])
    for one, two in zip(measures(scale), measures(2 * scale)):
        found = [run(compiled(files), words) for _, _, files, words in (one, two)]
        sizes = [len(files[name]) for _, name, files, _ in (one, two)]
        times, kept = [it[2] for it in found], [(it[3] - nothing[3]) * 1024 / size for it, size in zip(found, sizes)]
        print(f"  {one[0]}: {sizes[0]} and {sizes[1]} bytes, {times[0]:.2f} and {times[1]:.2f} seconds, "
              f"memory {kept[0]:.1f} and {kept[1]:.1f} times the file", flush=True)
        if any(it[0] for it in found):
            wrong.append(f"{one[0]}: {found}")
        if times[0] > LEAST and times[1] > 3 * times[0]:
            wrong.append(f"{one[0]}: twice the file takes {times[1] / times[0]:.1f} times as long")
    return wrong


def check(dbrun, scale):
    """All limits, and then the measures at sizes of this scale."""
    global DBRUN
    DBRUN = dbrun
    return limits() + compare(scale)
