"""Cuts a crate down to some of its tests: a copy without the other tests, the modules that the rest doesn't name, and
the libraries that it doesn't name. The compiler reads all libraries that it is given, so fewer take less time.

The layout is that of `rt fmt`. A copy that can't be compiled is no harm: bin/build-unproved then takes the whole crate.
"""

import os
import re
import shutil

import building

# A test: its attributes, its function's name, and the brace that ends it.
TEST = re.compile(r"^( *)#\[test\]\n(?:\1.*\n)*?\1(?:pub )?fn (\w+)(?:.*\n)*?\1\}\n", re.M)
# A module of a file of its own, with the lines above it that belong to it.
MODULE = re.compile(r"^(?:(?:///|#\[).*\n)*(?:pub(?:\(\w+\))? )?mod (\w+);\n", re.M)
# A statement that imports.
IMPORT = re.compile(r"^\s*(?:pub(?:\(\w+\))? )?use [^;]*;", re.M)


def tests_in(folder):
    """Each test below a folder of sources: its file and its function's name."""
    for at, _, names in os.walk(folder):
        for file in (f"{at}/{it}" for it in names if it.endswith(".rt")):
            yield from ((file, found[2]) for found in TEST.finditer(building.read(file)))


def file_of(parent, name):
    """The file of a module that another file declares."""
    folder, base = os.path.split(parent)
    if base not in ("lib.rt", "main.rt", "mod.rt"):
        folder = parent.removesuffix(".rt")
    return next(it for it in (f"{folder}/{name}.rt", f"{folder}/{name}/mod.rt") if os.path.exists(it))


def modules_of(root):
    """The text of each file of a crate, the root first, and the files that it declares by their modules' names."""
    texts, below, files = {}, {}, [root]
    for file in files:
        texts[file] = building.read(file)
        below[file] = {name: file_of(file, name) for name in MODULE.findall(texts[file])}
        files += below[file].values()
    return texts, below


def names(text, module):
    """Whether a text names a module, other than to declare it."""
    text = MODULE.sub("", text)
    if re.search(rf"\b{module}::|::{module}\b", text):
        return True
    return any(re.search(rf"\b{module}\b", it) for it in IMPORT.findall(text))


def needed_files(texts, below):
    """The files of a crate that have tests, those that declare them, and those that these name."""
    above = {file: (parent, name) for parent, found in below.items() for name, file in found.items()}
    needed = [file for file, text in texts.items() if TEST.search(text)]
    for file in needed:
        more = [above[file][0]] if file in above else []
        more += [other for other, (_, name) in above.items() if names(texts[file], name)]
        needed += [it for it in more if it not in needed]
    return needed


def cut(crate, only, to, libraries):
    """Copies a crate with only the tests whose names contain a word. Returns those of its libraries that the copy
    needs; none where no test is left."""
    shutil.copytree(crate, to, ignore=shutil.ignore_patterns("out", "proofs", "must-fail"))
    for file in {file for file, _ in tests_in(f"{to}/src")}:
        building.write(file, TEST.sub(lambda found: found[0] if only in found[2] else "", building.read(file)))
    texts, below = modules_of(f"{to}/src/lib.rt")
    needed = needed_files(texts, below)
    for file in needed:
        left = {name for name, it in below[file].items() if it in needed}
        texts[file] = MODULE.sub(lambda found, left=left: found[0] if found[1] in left else "", texts[file])
        building.write(file, texts[file])
    for file in set(texts) - set(needed):
        os.remove(file)
    return [it for it in libraries if any(re.search(rf"\b{it}\b", texts[file]) for file in needed)] if needed else None
