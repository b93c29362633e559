"""What the scripts of tests/ and bench/ that are written in Python share."""

import functools
import importlib.util
import os
import pty
import re
import shutil
import subprocess
import sys
import time

TOP = os.path.dirname(os.path.dirname(os.path.realpath(__file__)))
sys.path.append(f"{TOP}/bin")

from building import answer_help


# With this in the environment a test that lacks a tool or a right fails; without it the test is skipped.
ALL_TOOLS = "TABLEREEF_ALL_TOOLS"
# The line of a test that is skipped: the test, and what it lacks.
SKIPPED = re.compile(r"skipped: [^:]+: .+")
# The rights that tests need beside tools.
ROOT, NAMESPACES = "root", "user, mount and network namespaces"


def lacks(*needs):
    """The first of these tools, Python modules (as python3-NAME) and rights that this machine lacks, or None."""
    for need in needs:
        if need == ROOT:
            has = os.geteuid() == 0
        elif need == NAMESPACES:
            has = has_namespaces()
        elif need.startswith("python3-"):
            has = getattr(importlib.util.find_spec(need.removeprefix("python3-")), "origin", None) is not None
        else:
            has = shutil.which(need) is not None
        if not has:
            return need
    return None


@functools.cache
def has_namespaces():
    """Whether `unshare` is installed and may make user, mount and network namespaces."""
    if shutil.which("unshare") is None:
        return False
    return subprocess.run(["unshare", "-rmn", "true"], capture_output=True, check=False).returncode == 0


def take_python_with(*modules):
    """Begins the script again with the first python3 on the search path that has these modules, if this one hasn't."""
    answer_help()
    if not lacks(*(f"python3-{it}" for it in modules)):
        return
    for folder in os.environ.get("PATH", "").split(":"):
        python = f"{folder}/python3"
        words = [python, "-c", f"import {', '.join(modules)}"]
        if os.access(python, os.X_OK) and not subprocess.run(words, capture_output=True, check=False).returncode:
            os.execv(python, [python, *sys.argv])


def linked_tools(folder, tools):
    """The search path of a new folder with only these commands."""
    os.makedirs(folder)
    for tool in tools:
        os.symlink(sys.executable if tool == "python3" else shutil.which(tool), f"{folder}/{tool}")
    return folder


def program(kind=None):
    """The program that is tried, built first where need be: of a kind, or of the one that DBRUN_KIND names, or any. A
    script that is asked for help ends here."""
    answer_help()
    kind = kind or os.environ.get("DBRUN_KIND")
    found = subprocess.run([f"{TOP}/bin/dbrun", "--which", *([kind] if kind else [])], stdout=subprocess.PIPE,
                           text=True, check=False)
    if found.returncode:
        sys.exit(1)
    path = found.stdout.strip()
    print(f"the program: {path}", flush=True)
    return path


def shown_at(terminal):
    """What is written at a terminal until nobody has its other end any more, line by line. (A busy system may say that
    nobody has it while it still passes on what was written, so it is asked until it has said so for a while.)"""
    told, quiet = b"", 0
    while quiet < 5:
        try:
            more = os.read(terminal, 65536)
        except OSError:
            more = b""
        quiet = 0 if more else quiet + 1
        told += more
        time.sleep(0 if more else 0.02)
    os.close(terminal)
    return told.decode("utf-8", "replace").replace("\r\n", "\n").splitlines()


def at_terminal(words, folder):
    """What a program that ends by itself writes at a terminal, line by line. (The terminal doesn't control the program:
    a terminal that does is hung up when the program ends, and what nobody has read by then is lost.)"""
    terminal, at_it = pty.openpty()
    with subprocess.Popen(words, cwd=folder, stdin=at_it, stdout=at_it, stderr=at_it):
        os.close(at_it)
        return shown_at(terminal)


def instructions(words, **named):
    """How many instructions a command takes, by callgrind, which counts the same on a busy machine; none where it
    fails, or where valgrind isn't installed."""
    if not shutil.which("valgrind"):
        return None
    counted = ["valgrind", "--tool=callgrind", "--callgrind-out-file=/dev/null", *words]
    named = {"stdin": subprocess.DEVNULL, "stdout": subprocess.DEVNULL, "stderr": subprocess.PIPE, "text": True,
             **named}
    ran = subprocess.run(counted, check=False, **named)
    found = re.findall(r"Collected : (\d+)", ran.stderr)
    return int(found[-1]) if found and not ran.returncode else None


def verdict(passed, failed, skipped=0):
    """Prints the last line of a test, and returns its status; nothing tried and nothing skipped is a failure."""
    failed += not passed and not failed and not skipped
    print(f"{passed} passed, {failed} failed{f', {skipped} skipped' * bool(skipped)}", flush=True)
    return 1 if failed else 0


def show(text):
    """Prints lines at once, also where several threads print."""
    sys.stdout.write(f"{text}\n")
    sys.stdout.flush()


def may_skip(test, lacking):
    """Whether a test that lacks a tool or a right is skipped, which is printed, or fails."""
    is_skipped = ALL_TOOLS not in os.environ
    show(f"skipped: {test}: {lacking}" if is_skipped else f"{test}: it needs {lacking}")
    return is_skipped


def end_if_lacking(part, *needs):
    """Ends the script of a part that needs a tool or a right which this machine lacks."""
    answer_help()
    lacking = lacks(*needs)
    if lacking:
        is_skipped = may_skip(part, lacking)
        sys.exit(verdict(0, int(not is_skipped), int(is_skipped)))


class Count:
    """How many tries passed, and how many failed."""

    def __init__(self):
        self.passed = self.failed = 0

    def holds(self, so, what):
        """Counts a try, and prints what was found where it failed."""
        if so:
            self.passed += 1
        else:
            self.failed += 1
            print(what, flush=True)

    def is_same(self, what, found, wanted):
        self.holds(found == wanted, f"{what}: {str(found)[:300]}, not {str(wanted)[:300]}")

    def verdict(self):
        return verdict(self.passed, self.failed)
