#!/usr/bin/env python3
"""What the builders of the program share: which crates it uses, where a build is kept, one build at a time, and what
scripts know of the toolchain.

    bin/building.py proved|unproved     ends with status 0 if the build of this kind was made of the sources as they are
"""

import contextlib
import ctypes
import errno
import fcntl
import hashlib
import os
import re
import shutil
import signal
import subprocess
import sys
import tempfile

TOP = os.path.dirname(os.path.dirname(os.path.realpath(__file__)))
# Each kind of build stands in a folder of its name here, which git ignores.
OUT = f"{TOP}/out"
# What --version tells of each kind.
KINDS = {"proved": "proved", "unproved": "not proved, with run-time checks"}
# Where scratch folders stand, and how their names begin. (Python's own search for a place writes to each that it tries,
# and takes the current folder where no other has room.)
TEMPORARY, SCRATCH = os.path.abspath(os.environ.get("TMPDIR") or "/tmp"), "tablereef-room-"
# What the system and the toolchain's tools say of a full disk, and what rt says of it.
FULL, FULL_FOR_RT = os.strerror(errno.ENOSPC), "rt: the disk is full"

# What scripts read of the toolchain's lines, beyond the last one, which the guide promises. tests/first tells where
# another kit writes them otherwise. Of `rt ci`: a crate that was proved, one that was taken over, and what it notes.
PROVED, KEPT = re.compile(r"rt: (\w+) proved"), re.compile(r"rt: (\w+) is kept: .*")
NOTE = re.compile(r"rt: note: (.*)")
# Of `rt`, of itself: that it proves some crates by name, and keeps what passes. It keeps that in this folder beside the
# kit, which is its user's, as long as the disk has so many MB left. The other word says how many crates are proved at
# once.
KEEPS, STORE, STORE_LEAVES, LANES = "rt ci NAME..", "rattle-kept", 5000, "RT_JOBS"
# The files of a control group's limit of memory and of what it uses, in bytes.
GROUPS = [tuple(f"/sys/fs/cgroup/memory.{it}" for it in ("max", "current"))]
GROUPS += [tuple(f"/sys/fs/cgroup/memory/memory.{it}_in_bytes" for it in ("limit", "usage"))]
# Of `rt must-fail`: an edit that was refused.
REFUSED = re.compile(r"rt: (.+?): refused, as it must be.*")
# Of the tests' runner: a test that passed, and how many there are.
TEST_PASSED, TESTS = re.compile(r"test .+ \.\.\. ok"), re.compile(r"tests: (\d+)")
# The last line of `rt ci`, and of each script of tests/.
VERDICT = re.compile(r"(\d+) passed, (\d+) failed(?:, (\d+) skipped)?")

# What both builds link with, before a program and behind it, and what they need of the toolchain.
FIRST = [f"toolchain/lib/{it}" for it in ("Scrt1.o", "crti.o", "crtbeginS.o")]
LAST = "libm.so.6 libc.so.6 libc_nonshared.a ld-linux-x86-64.so.2 libgcc.a libgcc_s.so.1 crtendS.o crtn.o".split()
LAST = ["c/libos_c.a", "c/liblibc_c.a", *(f"toolchain/lib/{it}" for it in LAST)]
NEEDED = ["toolchain/bin/clang", "toolchain/bin/ld.lld", *FIRST, *LAST]

# Linux's call that has a process sent a signal when the one that started it ends, and its word for that.
PRCTL, SIGNAL_OF_PARENTS_DEATH = ctypes.CDLL(None).prctl, 1
BUILDER = os.getpid()
# The signals that have asked a build to end.
INTERRUPTS = []


class Failed(Exception):
    """A build that can't go on, and why, in one line."""


def say(text):
    print(f"dbrun: {text}", file=sys.stderr, flush=True)


def spelled(seconds):
    minutes, seconds = divmod(round(seconds), 60)
    return f"{minutes} min {seconds} s" if minutes else f"{seconds} s"


def answer_help(words=None):
    """Ends a script that is asked for help, before it builds or runs anything, with what it says of itself: on standard
    error and with status 1, as the program does. The words are those of its caller where none are given."""
    if {"--help", "-h"} & set(sys.argv[1:] if words is None else words):
        sys.exit(sys.modules["__main__"].__doc__.strip())


def uses_in(folder):
    """The libraries that each crate of a folder's crates.txt names."""
    with open(f"{folder}/crates.txt", encoding="utf-8") as it:
        lines = [line.partition("#")[0].partition(":") for line in it]
    return {head.split()[0]: below.split() for head, _, below in lines if head.split()}


def needed(name, uses):
    """The crates that a crate stands on, itself last, each behind those that it uses."""
    found = []
    for it in uses[name]:
        if it in uses:
            found += [below for below in needed(it, uses) if below not in found]
    return [*found, name]


def counted(said, status):
    """How many tests of a crate passed and failed, by what their runner said and its status; no count is a failure."""
    lines = said.splitlines()
    passed = sum(bool(TEST_PASSED.fullmatch(it)) for it in lines)
    count = next((int(it[1]) for it in map(TESTS.fullmatch, lines) if it), passed + 1)
    return passed, max(count - passed, int(status != 0))


def whole(folder, parts):
    """A folder of the toolchain, which has all of these files."""
    for it in parts:
        if not os.path.exists(f"{folder}/{it}"):
            raise Failed(f"the toolchain lacks {folder}/{it}")
    return folder


def kit(parts=()):
    """The toolchain's folder, which has all of these files."""
    try:
        ran = subprocess.run(["rt", "doc"], stdin=subprocess.DEVNULL, capture_output=True, text=True, check=True)
    except (OSError, subprocess.CalledProcessError) as error:
        raise Failed(f"the toolchain's command rt does not run ({error})") from error
    return whole(os.path.dirname(ran.stdout.strip()), parts)


def keeps(kit):
    """Whether the toolchain proves some crates by name, and can keep what passes: its store is this user's, or may be
    made, and there is room."""
    ran = subprocess.run(["rt"], stdin=subprocess.DEVNULL, capture_output=True, text=True, check=False)
    beside = os.path.dirname(kit)
    store = f"{beside}/{STORE}"
    is_ours = os.stat(store).st_uid == os.geteuid() if os.path.exists(store) else os.access(beside, os.W_OK)
    return KEEPS in ran.stdout + ran.stderr and is_ours and room_left(beside) >= STORE_LEAVES


def kit_libraries(kit, crates, uses):
    """The toolchain's libraries below these crates, std first, and what each of them uses."""
    found, names = {}, list(dict.fromkeys(["std", *(it for name in crates for it in uses[name] if it not in uses)]))
    for name in names:
        format = f"rlibs/{name}.rlib/format"
        with open(f"{whole(kit, [format])}/{format}", encoding="utf-8") as it:
            found[name] = re.findall(r"^dep (\w+)$", it.read(), re.M)
        names += [it for it in found[name] if it not in names]
    return found


def git(*words):
    """What git says of the checkout, nothing where there is none."""
    with contextlib.suppress(OSError):
        ran = subprocess.run(["git", "-C", TOP, *words], capture_output=True, text=True, check=False)
        return ran.stdout.strip() if ran.returncode == 0 else ""
    return ""


def read(file):
    with open(file, encoding="utf-8") as it:
        return it.read()


def write(file, text):
    """Writes a file. A failure names it, also where the system doesn't."""
    try:
        with open(file, "w", encoding="utf-8") as it:
            it.write(text)
    except OSError as error:
        error.filename = file
        raise


def replace(file, to):
    """Puts a file where it stays, at once or not at all."""
    new = f"{to}.{os.getpid()}"
    try:
        shutil.copy2(file, new)
        os.replace(new, to)
    finally:
        with contextlib.suppress(OSError):
            os.remove(new)


def room_left(place=TEMPORARY):
    """How many MB the disk of a place has left, else that of temporary files."""
    return shutil.disk_usage(place).free >> 20


def free_memory():
    """How many MB of memory are left, also under the limit of the process's control group."""
    with open("/proc/meminfo", encoding="ascii") as it:
        found = [next(int(line.split()[1]) >> 10 for line in it if line.startswith("MemAvailable:"))]
    for limit, used in GROUPS:
        # (a group without a limit has a word there, or no such files)
        with contextlib.suppress(OSError, ValueError):
            found.append((int(read(limit)) - int(read(used))) >> 20)
    return min(found)


def parts_of(crates, *kinds):
    """crates.txt, and the folders of these kinds that these crates have or may come to have."""
    return ["crates.txt", *(f"crates/{name}/{kind}" for name in crates for kind in kinds)]


def below(folder, parts):
    """These parts of a folder, and each file and folder below them."""
    for part in parts:
        if os.path.exists(f"{folder}/{part}"):
            yield part
        for at, folders, files in os.walk(f"{folder}/{part}"):
            yield from (f"{at[len(folder) + 1:]}/{it}" for it in [*folders, *files])


def changed_at(path):
    """When the state of a file or folder changed last, as `stat -c %.9Z` prints it."""
    seconds, rest = divmod(os.lstat(path).st_ctime_ns, 10**9)
    return f"{seconds}.{rest:09}"


def state_of(parts, folder=TOP):
    """What any change of these parts of the repository changes: each file and folder, and when its state changed last.
    bin/dbrun computes the same. (No ages are compared: a file may be dated in the future, or as another is.)"""
    lines = [f"{it} {changed_at(f'{folder}/{it}')}\n" for it in below(folder, parts)]
    return "".join(sorted(lines, key=os.fsencode))


def sum_of(parts, folder=TOP):
    """The checksum of the names and bytes of these parts, which doesn't depend on owners, dates and modes."""
    total = hashlib.sha256()
    for name in sorted(below(folder, parts), key=os.fsencode):
        path = f"{folder}/{name}"
        if os.path.isfile(path) and not os.path.islink(path):
            with open(path, "rb") as it:
                total.update(os.fsencode(f"{name}\0{hashlib.sha256(it.read()).hexdigest()}\n"))
    return f"{total.hexdigest()}\n"


def is_current(kind):
    """Whether the build of a kind was made of the sources as they are; not while another start is building it."""
    place = f"{OUT}/{kind}"
    with contextlib.suppress(OSError), open(f"{place}/lock", encoding="ascii") as lock:
        fcntl.flock(lock, fcntl.LOCK_SH | fcntl.LOCK_NB)
        parts = read(f"{place}/sources").splitlines()
        return stands(place, parts, state_of(parts))
    return False


def stands(place, parts, state):
    """Whether a program stands in a place, built of these parts in this state, or of the same names and bytes in
    another one; then this state is noted."""
    with contextlib.suppress(OSError):
        if read(f"{place}/state") != state and read(f"{place}/sum") == sum_of(parts):
            write(f"{place}/state.{os.getpid()}", state)
            os.replace(f"{place}/state.{os.getpid()}", f"{place}/state")
        return read(f"{place}/state") == state and os.path.exists(f"{place}/dbrun")
    return False


def place_program(program, place, parts, state):
    """Puts a program where it stays, built of these parts in this state. It stands there once its state does. (Sources
    that have changed since the build began have no sum.)"""
    version = subprocess.run(["rt", "version"], capture_output=True, text=True, check=False).stdout.strip()
    changed = " with changes" if git("status", "--porcelain", "--", "crates", "crates.txt") else ""
    commit = f"commit {git('rev-parse', '--short', 'HEAD') or 'unknown'}{changed}"
    version = f"{KINDS[os.path.basename(place)]}, {commit}, {version}\n"
    sources, total = "\n".join([*parts, ""]), sum_of(parts)
    if state_of(parts) != state:
        total = ""
    with contextlib.suppress(FileNotFoundError):
        os.remove(f"{place}/state")
    os.chmod(program, 0o755)
    replace(program, f"{place}/dbrun")
    for name, text in (("sources", sources), ("version", version), ("sum", total), ("state", state)):
        write(f"{program}.{name}", text)
        replace(f"{program}.{name}", f"{place}/{name}")


@contextlib.contextmanager
def alone(place):
    """Waits until no other build works in a place; what a killed one left there goes."""
    os.makedirs(place, exist_ok=True)
    with open(f"{place}/lock", "w", encoding="ascii") as lock:
        try:
            fcntl.flock(lock, fcntl.LOCK_EX | fcntl.LOCK_NB)
        except BlockingIOError:
            say("another start is building the same program: waiting for it")
            fcntl.flock(lock, fcntl.LOCK_EX)
        for name in os.listdir(place):
            if re.fullmatch(r"\w+\.\d+", name):
                os.remove(f"{place}/{name}")
        yield


def hold(room, how=0):
    """Holds a folder, until what this gives is closed or the process ends, however it ends."""
    holder = os.open(room, os.O_RDONLY | os.O_DIRECTORY | os.O_NOFOLLOW)
    try:
        fcntl.flock(holder, fcntl.LOCK_EX | how)
    except OSError:
        os.close(holder)
        raise
    return holder


def sweep():
    """Takes away the scratch folders that nobody holds."""
    for name in os.listdir(TEMPORARY):
        if name.startswith(SCRATCH):
            with contextlib.suppress(OSError):
                holder = hold(f"{TEMPORARY}/{name}", fcntl.LOCK_NB)
                shutil.rmtree(f"{TEMPORARY}/{name}", ignore_errors=True)
                os.close(holder)


def new_room():
    """A new scratch folder, and what holds it. (Another start may sweep it away before it is held.)"""
    while True:
        room = tempfile.mkdtemp(prefix=SCRATCH, dir=TEMPORARY)
        with contextlib.suppress(FileNotFoundError):
            holder = hold(room)
            if os.path.exists(room):
                return room, holder
            os.close(holder)


@contextlib.contextmanager
def scratch():
    """A folder for what a build makes on the way; what killed builds left goes too."""
    sweep()
    room, holder = new_room()
    try:
        yield room
    finally:
        shutil.rmtree(room, ignore_errors=True)
        os.close(holder)


def end_with_builder():
    """Has the system end the process that calls this when the builder ends, even where that is killed."""
    PRCTL(SIGNAL_OF_PARENTS_DEATH, signal.SIGKILL)
    if os.getppid() != BUILDER:
        os._exit(1)


@contextlib.contextmanager
def running(words, **how):
    """A command in a session of its own, which ends with this one, however it ends."""
    how = {"stdin": subprocess.DEVNULL, "start_new_session": True, "preexec_fn": end_with_builder, **how}
    with subprocess.Popen(words, **how) as child:
        try:
            if INTERRUPTS:
                raise KeyboardInterrupt
            yield child
        finally:
            with contextlib.suppress(ProcessLookupError):
                os.killpg(child.pid, signal.SIGKILL)


def interrupt(number, _):
    """Ends a build. (Python drops what is raised just after a fork, so the signal is noted too.)"""
    INTERRUPTS.append(number)
    raise KeyboardInterrupt


def told_of(error):
    """What the system refused, in one line: of a copy where it should stand, and of a folder's copy its first file."""
    file, why = error.filename2 or error.filename, str(error)
    if isinstance(error, shutil.Error):
        _, file, why = error.args[0][0]
    if error.errno not in (errno.ENOSPC, errno.EDQUOT) and FULL not in why:
        return why
    return f"the disk is full: {file}" if file else "the disk is full"


def end_with(build, interrupted, instead=""):
    """Runs a build, and ends with its status; a failure is told in one line, and what may be done instead. A signal
    that the caller ignores stays ignored, as a hangup under nohup. Help is told in place of a build."""
    answer_help()
    for it in (signal.SIGINT, signal.SIGTERM, signal.SIGHUP):
        if signal.getsignal(it) != signal.SIG_IGN:
            signal.signal(it, interrupt)
    try:
        sys.exit(build() or 0)
    except KeyboardInterrupt:
        say(interrupted)
    except Failed as failed:
        say(f"{failed}{instead}")
    except OSError as error:
        say(f"{told_of(error)}{instead}")
    sys.exit(1)


if __name__ == "__main__":
    answer_help()
    if sys.argv[1:] not in ([it] for it in KINDS):
        sys.exit("dbrun: usage: bin/building.py proved|unproved")
    sys.exit(not is_current(sys.argv[1]))
