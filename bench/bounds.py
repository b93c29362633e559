"""Runs the program of a benchmark, shows what it prints, and judges the times in it: bounds.py NAME PROGRAM

A bound is a growth, from the smallest to the largest size, or a ratio to a plain copy. So it holds on a slow machine
too. Each is generous: only a mechanism that grows passes it. The last line counts what passed and what failed."""

import re
import subprocess
import sys

# How many times as long a byte or an instruction may take at the largest size, where the time is linear.
LINEAR = 4
# The same of what goes down a tree of keys, from 1,000 to 100,000 rows.
SEARCHED = 16
# How many times as long as a plain copy of its file a table may take.
COPIED = 4


def growth(times, most):
    """Whether the last time isn't so many times the first. What takes less than one counts as one."""
    return len(times) > 1 and times[-1] <= most * max(times[0], 1)


def dbf_file(text):
    """A table of 60 MB beside a plain copy."""
    percents = [int(it) for it in re.findall(r": (\d+) per cent$", text, re.M)]
    yield "a table beside a plain copy", len(percents) == 1 and percents[0] <= 100 * COPIED


def prg_parser(text):
    """Nanoseconds a byte of each kind of command file."""
    kinds = {}
    for kind, time in re.findall(r"^(.+): \d+ bytes, (\d+) ns a byte, program: \w+$", text, re.M):
        kinds.setdefault(kind, []).append(int(time))
    yield "eight kinds of three sizes", [len(it) for it in kinds.values()] == [3] * 8
    for kind, times in kinds.items():
        yield kind, growth(times, LINEAR)


def xverify(text):
    """Nanoseconds a byte read, and an instruction verified."""
    read = re.findall(r"^(\d+) bytes read in (\d+) us: (\w+)$", text, re.M)
    judged = re.findall(r"^\d+ instructions, \d+ maps: \d+ us, (\d+) ns an instruction, accepted: (\w+)$", text, re.M)
    yield "three codes read", [it[2] for it in read] == ["true"] * 3
    yield "three codes accepted", [it[1] for it in judged] == ["true"] * 3
    yield "a byte read", growth([int(time) * 1000 / int(size) for size, time, _ in read], LINEAR)
    yield "an instruction verified", growth([int(it[0]) for it in judged], LINEAR)


def work_area(text):
    """Nanoseconds of appends, searches and moves with one open index, from 1,000 rows to 100,000."""
    opened = re.findall(r"^\d indexes, opened (\w+): (\d+) rows added", text, re.M)
    wanted = [("true", it) for it in ("100000", "1000", "10000", "100000", "100000")]
    yield "all rows added", opened == wanted
    for what, told in (("an append", "rows added and written"), ("a search", "keys found"), ("a move", "moves by one")):
        times = [int(it) for it in re.findall(rf"^1 indexes.*{told}.* (\d+) ns each$", text, re.M)]
        yield what, len(times) == 3 and growth(times, SEARCHED)


def main(name, program):
    with subprocess.Popen([program], stdout=subprocess.PIPE, text=True) as child:
        lines = []
        for line in child.stdout:
            print(line, end="", flush=True)
            lines.append(line)
    judged = list({it.__name__: it for it in (dbf_file, prg_parser, xverify, work_area)}[name]("".join(lines)))
    judged.append(("the program's end", child.returncode == 0))
    failed = [what for what, passed in judged if not passed]
    for what in failed:
        print(f"beyond its bound, or not as it should be: {what}")
    print(f"{len(judged) - len(failed)} passed, {len(failed)} failed")
    return int(bool(failed))


if __name__ == "__main__":
    sys.exit(main(*sys.argv[1:]))
