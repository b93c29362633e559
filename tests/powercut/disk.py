"""What a power cut may leave of folders, by the system calls that programs made.

The model is strict. A file's bytes and mode are on the device from its sync on; before, a power cut leaves what the
device had, all that was written, or half of it. A change of names is there from the sync of its folder on; before, a
power cut leaves any subset of the changes, each whole.
"""

import itertools
import os
import re
import shutil

# What the mode of a new file lacks of what its maker asks for.
MASK = 0o022
# Calls that change neither bytes nor names.
HARMLESS = {
    "access", "execve", "faccessat", "faccessat2", "fcntl", "flock", "fstat", "getcwd", "getdents64", "ioctl", "lseek",
    "lstat", "mmap", "newfstatat", "poll", "ppoll", "pread64", "read", "readlink", "stat", "statx",
}


class Call:
    """A system call that was made: its name, its number among those of this name, its arguments and its result."""

    def __init__(self, name, number, arguments, result):
        self.name, self.number, self.arguments, self.result = name, number, arguments, result

    def text(self, place):
        """The bytes of an argument, which strace writes in hexadecimal digits."""
        return bytes.fromhex(self.arguments[place].strip('"').replace("\\x", ""))

    def path(self, place):
        return self.text(place).decode()

    def at(self, place):
        """The descriptor of an argument."""
        return int(self.arguments[place])


def calls_in(trace):
    """The calls that strace wrote to a file, with those that a signal kept from being made."""
    counts, found = {}, []
    with open(trace, encoding="ascii") as it:
        for line in it:
            call = re.fullmatch(r"\d+ +(\w+)\((.*)\) += (-?\d+|\?).*\n", line)
            if call:
                counts[call[1]] = counts.get(call[1], 0) + 1
                result = -1 if call[3] == "?" else int(call[3])
                found.append(Call(call[1], counts[call[1]], call[2].split(", "), result))
            elif not re.match(r"\d+ +(\+\+\+|---|exit_group\()", line):
                raise ValueError(f"strace wrote {line!r}")
    return found


class File:
    """A plain file: its bytes and its mode as programs see them, and as the device has them."""

    def __init__(self, data, mode, is_kept):
        self.now = data, mode
        self.kept = self.now if is_kept else (b"", mode)
        self.is_kept = is_kept

    def write(self, data):
        self.now = self.now[0] + data, self.now[1]
        self.is_kept = False

    def cut(self, length):
        self.now = self.now[0][:length], self.now[1]
        self.is_kept = False

    def set_mode(self, mode):
        self.now = self.now[0], mode
        self.is_kept = False

    def sync(self):
        self.kept, self.is_kept = self.now, True

    def seen(self):
        return self.now

    def versions(self):
        if self.is_kept:
            return [self.kept]
        more = self.now[0][len(self.kept[0]):]
        return [self.kept, self.now, (self.kept[0] + more[:len(more) // 2], self.kept[1])]


class Folder:
    """A folder: what is under its names as programs see it, as the device has it, and the changes between the two."""

    def __init__(self, names):
        self.now, self.kept, self.changes = dict(names), dict(names), []

    def change(self, names):
        """Puts what is given under names, nothing under those of `None`."""
        self.now = with_change(self.now, names)
        self.changes.append(names)

    def sync(self):
        self.kept, self.changes = dict(self.now), []

    def seen(self):
        return frozenset((name, it.seen()) for name, it in self.now.items())

    def versions(self):
        """What a power cut may leave: pairs of names and what is under them. First come those with few changes, the
        last ones of all."""
        found = {}
        for count in range(len(self.changes) + 1):
            for some in itertools.combinations(reversed(self.changes), count):
                names = self.kept
                for change in reversed(some):
                    names = with_change(names, change)
                each = [[(name, it) for it in node.versions()] for name, node in names.items()]
                found.update(dict.fromkeys(map(frozenset, itertools.product(*each))))
        return list(found)


def with_change(names, change):
    return {name: it for name, it in {**names, **change}.items() if it is not None}


def read(path):
    """What a file or a folder holds, as a version of it."""
    if os.path.isdir(path):
        return frozenset((name, read(f"{path}/{name}")) for name in os.listdir(path))
    with open(path, "rb") as it:
        return it.read(), os.stat(path).st_mode & 0o777


def write(path, version):
    """Makes a file or a folder of a version."""
    if isinstance(version, frozenset):
        os.mkdir(path)
        for name, it in version:
            write(f"{path}/{name}", it)
        return
    with open(path, "wb") as it:
        it.write(version[0])
    os.chmod(path, version[1])


def put(path, version):
    """Makes a folder hold just what a version of it does."""
    shutil.rmtree(path, ignore_errors=True)
    write(path, version)


def kept(version):
    """A file or a folder that the device has."""
    if isinstance(version, frozenset):
        return Folder({name: kept(it) for name, it in version})
    return File(*version, True)


class Disk:
    """Folders, in one of which programs run, and what the last of these said on standard error."""

    def __init__(self, version, home):
        self.home, self.tree = home, kept(version)
        self.begin()

    def begin(self, ignored=0):
        """Another program begins. Its sync of the number `ignored`, counted from 1, does nothing: with one of those
        ignored that it needs, the tests must find fault."""
        self.open, self.said, self.syncs, self.ignored = {}, b"", 0, ignored
        return self

    def found(self, path):
        """The folder of a path, and the last name of the path, empty for the top; none for a path outside."""
        parts = os.path.normpath(os.path.join(self.home, path)).split("/")
        if os.path.isabs(path) or parts[0] == "..":
            return None, ""
        folder = self.tree
        for part in parts[:-1]:
            folder = folder.now[part]
        return folder, parts[-1]

    def take(self, call):
        """Makes a call, and returns whether it changed what a power cut may leave."""
        if call.result < 0 or call.name in HARMLESS:
            return False
        return getattr(self, f"take_{call.name}")(call)

    def take_close(self, call):
        self.open.pop(call.at(0), None)
        return False

    def take_openat(self, call):
        folder, name = self.found(call.path(1))
        self.open[call.result] = folder and folder.now.get(name)
        if folder is None or "O_CREAT" not in call.arguments[2] or name in folder.now:
            return False
        made = File(b"", int(call.arguments[3], 8) & ~MASK, False)
        folder.change({name: made})
        self.open[call.result] = made
        return True

    def take_write(self, call):
        file, data = self.open.get(call.at(0)), call.text(1)[:call.result]
        if file:
            file.write(data)
        elif call.at(0) == 2:
            self.said += data
        return file is not None or call.at(0) == 2

    def take_ftruncate(self, call):
        self.open[call.at(0)].cut(call.at(1))
        return True

    def take_fchmod(self, call):
        self.open[call.at(0)].set_mode(int(call.arguments[1], 8) & 0o777)
        return True

    def take_fsync(self, call):
        self.syncs += 1
        if self.syncs != self.ignored:
            self.open[call.at(0)].sync()
        return True

    take_fdatasync = take_fsync

    def take_rename(self, call):
        (folder, name), (other, to) = self.found(call.path(0)), self.found(call.path(1))
        if folder is not other:
            raise ValueError("a file is moved to another folder")
        folder.change({name: None, to: folder.now[name]})
        return True

    def take_unlink(self, call):
        folder, name = self.found(call.path(0))
        folder.change({name: None})
        return True

    def take_mkdir(self, call):
        folder, name = self.found(call.path(0))
        folder.change({name: Folder({})})
        return True

    def states(self):
        """What a power cut may leave."""
        return self.tree.versions()

    def seen(self):
        """What the next program finds if the power isn't cut."""
        return self.tree.seen()
