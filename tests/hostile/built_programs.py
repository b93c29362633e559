"""Programs built with checks and without proof, in a copy of the repository, the one of the folder program among
them."""

import glob
import os
import shutil
import subprocess
import sys

HERE = os.path.dirname(os.path.realpath(__file__))
TOP = os.path.dirname(os.path.dirname(HERE))
NAME = "hostile_memory"
USES = """file_access file_commands code_items xcode xverify machine tagged_machine run_steps ndx_tree dbf_file shape
    table_files text_lines work_area calendar compile_commands run_commands"""


def copied(room):
    """The copy of the crates in the folder, with the program of the folder program as one more; made where it isn't
    there."""
    tree = os.path.join(room, "tree")
    if os.path.exists(tree):
        return tree
    shutil.copytree(f"{TOP}/crates", f"{tree}/crates", ignore=shutil.ignore_patterns("out"))
    os.makedirs(f"{tree}/crates/{NAME}/src")
    # (their names end otherwise here, since the gate takes .rt files in crates alone)
    for source in glob.glob(f"{HERE}/program/*.txt"):
        shutil.copy(source, f"{tree}/crates/{NAME}/src/{os.path.basename(source)[:-4]}.rt")
    shutil.copy(f"{TOP}/HANDLES", tree)
    with open(f"{TOP}/crates.txt", encoding="utf-8") as old, open(f"{tree}/crates.txt", "w", encoding="utf-8") as new:
        new.write(f"{old.read()}{NAME}: {' '.join(USES.split())}\n")
    with open(f"{tree}/crates/{NAME}/stdin", "wb"):
        return tree


def built(room, name):
    """Builds a program, and answers its path."""
    program = os.path.join(room, name)
    if subprocess.run([f"{TOP}/bin/build-unproved", copied(room), name, program], check=False).returncode:
        sys.exit(f"{name} isn't built")
    return program
