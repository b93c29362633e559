"""Runs a program built with checks while one of its requests for memory, or all from one on, is refused.

Every request goes through one of two functions of the program. A breakpoint on their first instruction, which does
nothing (endbr64), counts them; where one is to be refused, the function answers so at once.
"""

import ctypes
import functools
import os
import resource
import signal
import struct
import subprocess

FUNCTIONS = ("rattle_alloc", "rattle_realloc")
NOTHING = b"\xf3\x0f\x1e\xfa"
TRACE_ME, CONTINUE, GET_REGISTERS, SET_REGISTERS = 0, 7, 12, 13
RAX, RIP, RSP, REGISTERS = 10, 16, 19, 27
SECONDS = 20

libc = ctypes.CDLL(None, use_errno=True)
libc.ptrace.argtypes = (ctypes.c_long, ctypes.c_long, ctypes.c_void_p, ctypes.c_void_p)
libc.ptrace.restype = ctypes.c_long


@functools.lru_cache
def offsets(program):
    """Where the two functions stand in the program's file."""
    lines = subprocess.run(["nm", program], capture_output=True, text=True, check=True).stdout.splitlines()
    found = [int(line.split()[0], 16) for line in lines if line.split()[-1] in FUNCTIONS]
    if len(found) != len(FUNCTIONS):
        raise SystemExit(f"{program}: the functions that ask for memory aren't there")
    return found


def begin(program, words, folder, streams):
    """Starts the program in a folder, stopped at its first instruction."""
    pid = os.fork()
    if pid:
        os.waitpid(pid, 0)
        return pid
    os.chdir(folder)
    for number, stream in enumerate(streams):
        os.dup2(stream, number)
    resource.setrlimit(resource.RLIMIT_CPU, (SECONDS, SECONDS))
    libc.ptrace(TRACE_ME, 0, None, None)
    os.execve(program, [program, *words], {})
    os._exit(127)


def base_of(pid, program):
    """Where the program was put in memory."""
    name = os.path.realpath(program)
    with open(f"/proc/{pid}/maps", encoding="utf-8") as maps:
        return min(int(line.split("-")[0], 16) for line in maps if line.rstrip().endswith(name))


def set_traps(pid, places):
    """Puts a breakpoint at each place."""
    with open(f"/proc/{pid}/mem", "r+b", buffering=0) as memory:
        for place in places:
            memory.seek(place)
            if memory.read(len(NOTHING)) != NOTHING:
                raise SystemExit("a function begins otherwise than it should")
            memory.seek(place)
            memory.write(b"\xcc")


def pass_request(pid, refused):
    """Lets a request go on behind the breakpoint, or answers that it is refused."""
    registers = (ctypes.c_ulonglong * REGISTERS)()
    libc.ptrace(GET_REGISTERS, pid, None, ctypes.addressof(registers))
    if refused:
        with open(f"/proc/{pid}/mem", "rb", buffering=0) as memory:
            memory.seek(registers[RSP])
            registers[RIP] = struct.unpack("<Q", memory.read(8))[0]
        registers[RSP] += 8
        registers[RAX] = 0
    else:
        registers[RIP] += len(NOTHING) - 1
    libc.ptrace(SET_REGISTERS, pid, None, ctypes.addressof(registers))


def traced(pid, is_refused):
    """Runs a stopped program to its end. How many requests it made, and its status, below 0 for a signal."""
    count, sent = 0, 0
    while True:
        libc.ptrace(CONTINUE, pid, None, sent)
        _, status = os.waitpid(pid, 0)
        if os.WIFEXITED(status):
            return count, os.WEXITSTATUS(status)
        if os.WIFSIGNALED(status):
            return count, -os.WTERMSIG(status)
        sent = os.WSTOPSIG(status)
        if sent == signal.SIGTRAP:
            count, sent = count + 1, 0
            pass_request(pid, is_refused(count))


def run(program, words, folder, typed, is_refused):
    """Runs a program: how many requests for memory it made, its status, standard output and standard error."""
    names = [os.path.join(folder, f".{name}") for name in ("in", "out", "err")]
    with open(names[0], "wb") as it:
        it.write(typed)
    modes = (os.O_RDONLY, os.O_RDWR | os.O_CREAT | os.O_TRUNC, os.O_RDWR | os.O_CREAT | os.O_TRUNC)
    streams = [os.open(name, mode, 0o600) for name, mode in zip(names, modes)]
    pid = begin(program, words, folder, streams)
    base = base_of(pid, program)
    set_traps(pid, [base + place for place in offsets(program)])
    count, status = traced(pid, is_refused)
    for stream in streams:
        os.close(stream)
    out, err = (open(name, "rb").read() for name in names[1:])
    for name in names:
        os.remove(name)
    return count, status, out, err


def none(_):
    """Refuses no request."""
    return False
