"""Each request for memory refused in turn, in runs over tables in memory and in the built program."""

import multiprocessing
import os
import re
import struct
import subprocess
import tempfile

import refusing
from worked import CASES

EXAMPLES = os.path.join(os.path.dirname(os.path.realpath(__file__)), "..", "..", "examples")
DBRUN = None
MEMORY = None
REFUSED_BEFORE, TOLD = 5, re.compile(rb"short of memory at (\d+)")
# Behind so many steps the first growth of this run is asked for.
FIRST_GROWTH = {
    "a customer is added": 4,
    "customers outgrow their file": 7,
    "seven indexes are made": 0,
    "a page splits in seven indexes": 2,
}
# The runs of the built program: with no index, with one that is changed, made anew and emptied, and with seven.
OF_PROGRAM = ("customers outgrow their file", "keys shrink", "records are removed", "a page splits in seven indexes")
# The other commands over the files behind the last of these runs.
COMMANDS = (("verify", "M.XBC"), ("code", "M.XBC"), ("list", "S.DBF"), ("index", "S1.NDX"),
            ("compile", "M.DCL", "M.XBC", "M.PRG"))


def set_programs(dbrun, memory):
    """Names the programs, in each process anew."""
    global DBRUN, MEMORY
    DBRUN, MEMORY = dbrun, memory


def put_files(folder, case):
    """Puts the files of a case into an empty folder, and its code."""
    sources = {"M.DCL": case.declarations.encode(), "M.PRG": case.source.encode()}
    for name, content in {**case.files, **sources}.items():
        with open(os.path.join(folder, name), "wb") as it:
            it.write(content)
    subprocess.run([DBRUN, "compile", "M.DCL", "M.XBC", "M.PRG"], cwd=folder, check=True)


def contents(folder):
    """The files of a folder."""
    names = sorted(name for name in os.listdir(folder) if not name.startswith("."))
    return {name: open(os.path.join(folder, name), "rb").read() for name in names}


def bundle(folder, case, compare):
    """What the program of the folder program reads."""
    numbers = {"BUDGET": case.budget, "LIMIT": 1_000_000, "COMPARE": compare}
    files = {**case.files, "CODE": contents(folder)["M.XBC"], "TYPED": case.typed}
    files.update((name, struct.pack("<I", number)) for name, number in numbers.items())
    parts = [bytes([len(name)]) + name.encode() + struct.pack("<I", len(it)) + it for name, it in files.items()]
    return b"".join(parts)


def judged(wanted, status, out, err):
    """What is wrong with a run in which a request was refused, and behind how many steps it ended short of memory."""
    steps = [int(it) for it in TOLD.findall(err)]
    if status == REFUSED_BEFORE:
        return ("refused with output" if out else None), None
    if status != 0 or out != wanted:
        return f"status {status}, {err.decode(errors='replace')[-300:]}, {out[-60:]}", None
    return None, (steps[0] if steps else None)


def refuse_in_turn(name):
    """Refuses each request of a case in turn. What was wrong, and a line that tells of the case."""
    case, wrong, resumed, before = CASES[name], [], [], 0
    with tempfile.TemporaryDirectory() as folder:
        put_files(folder, case)
        run = lambda typed, refused: refusing.run(MEMORY, [], folder, typed, refused)
        _, status, whole, err = run(bundle(folder, case, 1), refusing.none)
        if status or err or not whole.startswith(case.rows.encode()) or case.ended.encode() not in whole:
            return [f"{name}: the run itself: {status} {err} {whole}"], name
        typed = bundle(folder, case, 0)
        count = run(typed, refusing.none)[0]
        for n in range(1, count + 1):
            _, status, out, err = run(typed, lambda number, n=n: number == n)
            fault, steps = judged(whole, status, out, err)
            wrong += [f"{name}, request {n}: {fault}"] if fault else []
            resumed += [steps] if steps is not None else []
            before += status == REFUSED_BEFORE
    if not resumed or min(resumed) != FIRST_GROWTH.get(name, min(resumed)):
        wrong.append(f"{name}: no run ended short of memory where it should")
    places = ", ".join(f"{resumed.count(it)} behind {it}" for it in sorted(set(resumed)))
    told = f"{name}: {count} requests, {before} refused outside of the run"
    return wrong, f"{told}, {len(resumed)} taken up again ({places})"


def states(case, files):
    """The files behind a run at each budget, from none to what it costs, and how the whole run is told."""
    found = []
    while True:
        with tempfile.TemporaryDirectory() as folder:
            put_contents(folder, files)
            words = [DBRUN, "run", "M.XBC", "--budget", str(len(found))]
            done = subprocess.run(words, cwd=folder, input=case.typed, capture_output=True, check=False)
            found.append(contents(folder))
            if done.returncode == 0 or len(found) > case.budget:
                return found, done


def put_contents(folder, files):
    """Puts files into an empty folder."""
    for name, content in files.items():
        with open(os.path.join(folder, name), "wb") as it:
            it.write(content)


def is_begun(files, old, new, order):
    """Whether the files of the order are the new ones as far as some place, and the old ones behind it."""
    kinds = [files.get(name) for name in order]
    for place in range(len(order) + 1):
        if kinds == [new.get(name) for name in order[:place]] + [old.get(name) for name in order[place:]]:
            return True
    return False


def program_fault(case, old, ended, status, err, files):
    """What is wrong with a run of the built program in which memory was refused."""
    behind, whole = ended
    order = [name for name in sorted(whole and behind[-1], key=lambda it: (not it.endswith(".DBF"), it))]
    told = re.search(rb"^(memory|spent|finished) (\d+)$", err, re.M)
    if status not in (0, 3, 5, 6) or set(files) - set(behind[-1]):
        return f"status {status} {err[-300:]}, files {sorted(files)}"
    if told:
        right = files == behind[min(int(told[2]), len(behind) - 1)]
        return None if right and (status in (0, 3, 5)) else f"other files, told {told[0]}"
    if status not in (5, 6) or not any(is_begun(files, old, new, order) for new in behind):
        return f"status {status}, told {err[-100:]}: files neither old nor new"
    return None


def refuse_in_program(name):
    """Refuses each request of the built program's run in turn, and then all from each one on."""
    case, wrong, kinds = CASES[name], [], {}
    with tempfile.TemporaryDirectory() as folder:
        put_files(folder, case)
        old = contents(folder)
        ended = states(case, old)
        words, count = ["run", "M.XBC", "--budget", str(case.budget)], 0
        for n, on in [(0, 0)] + [(n, on) for n in range(1, 100_000) for on in (0, 1)]:
            if n > count > 0:
                break
            with tempfile.TemporaryDirectory() as room:
                put_contents(room, old)
                refused = lambda number, n=n, on=on: number == n or (on and number > n)
                made, status, _, err = refusing.run(DBRUN, words, room, case.typed, refused if n else refusing.none)
                fault = program_fault(case, old, ended, status, err, contents(room))
            count = count or made
            wrong += [f"{name}, request {n} of the program{' and on' if on else ''}: {fault}"] if fault else []
            kinds[status] = kinds.get(status, 0) + 1
    told = ", ".join(f"{kinds[it]} with status {it}" for it in sorted(kinds))
    return wrong, f"{name}, the built program: {count} requests, {told}"


def refuse_in_command(words):
    """Refuses each request of a command in turn, and then all from each one on: it changes no file, or writes all of
    it."""
    case, wrong, count = CASES["a page splits in seven indexes"], [], 0
    with tempfile.TemporaryDirectory() as folder:
        put_files(folder, case)
        old = contents(folder)
        count, status, whole, _ = refusing.run(DBRUN, words, folder, b"", refusing.none)
        for n, on in [(n, on) for n in range(1, count + 1) for on in (0, 1)]:
            refused = lambda number, n=n, on=on: number == n or (on and number > n)
            _, status, out, err = refusing.run(DBRUN, words, folder, b"", refused)
            if status not in (0, 5, 6) or (status == 0 and out != whole) or contents(folder) != old:
                wrong.append(f"{words}, request {n}{' and on' if on else ''}: status {status} {err} "
                             f"{sorted(contents(folder))}")
    return wrong, f"{words[0]}, the built program: {count} requests"


PARTS = {"run": refuse_in_turn, "program": refuse_in_program, "command": refuse_in_command}


def task(words):
    """One part, by its name."""
    kind, name = words
    return PARTS[kind](name)


def check(dbrun, memory, jobs):
    """All parts. What was wrong."""
    tasks = [("program", name) for name in OF_PROGRAM] + [("command", words) for words in COMMANDS]
    tasks = [("run", name) for name in reversed(CASES)] + tasks
    wrong = []
    with multiprocessing.Pool(jobs, set_programs, (dbrun, memory)) as pool:
        for faults, line in pool.imap_unordered(task, tasks):
            print(f"  {line}", flush=True)
            wrong += faults
    return wrong
