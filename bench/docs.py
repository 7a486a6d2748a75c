#!/usr/bin/env python3
"""Runs every command of the README, the guide and the page of faults, and compares what each prints with what stands there.

bench/docs.py [--write] [--program FILE] [DOCUMENT..]

--write puts what the commands print in its place; --program takes another build of the program than that of bin/signoff. The commands run in a
new folder, which has the examples and bin/signoff, one document after another. What a reader is to do by hand stands behind the ``` of a block:

    ```console                      commands behind `$ `, each with what it prints
    ``` file=NAME                   the block is the file NAME
    ``` file=NAME behind="TEXT"     the block is inserted in NAME, behind the first line that has TEXT
    ``` shows=NAME                  the block is what the file NAME has

It ends with status 1 where something differs, also an example and its copy in crates/test_runs/data, and where bench/lint.py finds something or
what bench/help.py makes isn't current.
"""
import difflib
import filecmp
import os
import re
import shutil
import subprocess
import sys
import tempfile

TOP = os.path.dirname(os.path.dirname(os.path.abspath(__file__)))
MARK = "@@ end of what a command prints @@"


def blocks_of(lines):
    """The blocks of a document: what stands behind the opening ```, and the first and the last line inside."""
    opened = None
    for at, line in enumerate(lines):
        if line.startswith("```"):
            if opened is None:
                opened = at
            else:
                yield lines[opened][3:].strip(), opened + 1, at
                opened = None


def room_in(folder, program):
    """A folder in which the commands can run."""
    shutil.copytree(f"{TOP}/examples", f"{folder}/examples")
    os.mkdir(f"{folder}/bin")
    with open(f"{folder}/bin/signoff", "w", encoding="utf-8") as script:
        script.write(f'#!/bin/sh\nexec "{program}" "$@"\n')
    os.chmod(f"{folder}/bin/signoff", 0o755)
    return folder


def commands_of(lines):
    """The commands of a block, without what they print."""
    return [line[2:] for line in lines if line.startswith("$ ")]


def printed_by(commands, folder):
    """What each of the commands prints, run by one shell."""
    script = "".join(f"{it}\nstatus=$?; printf '\\n{MARK}\\n'; (exit $status)\n" for it in commands)
    ended = subprocess.run(["bash", "-c", "exec 2>&1\n" + script], cwd=folder, stdin=subprocess.DEVNULL,
                           capture_output=True, text=True, check=False)
    return [it.strip("\n").split("\n") if it.strip("\n") else [] for it in ended.stdout.split(f"\n{MARK}\n")[:-1]]


def put_file(words, lines, folder):
    """Makes the file that a block is, or inserts the block in it."""
    name = re.search(r"file=(\S+)", words).group(1)
    behind = re.search(r'behind="([^"]*)"', words)
    if behind:
        with open(f"{folder}/{name}", encoding="utf-8") as it:
            old = it.read().split("\n")
        at = next(at for at, line in enumerate(old) if behind.group(1) in line)
        lines = old[:at + 1] + lines + old[at + 1:-1]
    with open(f"{folder}/{name}", "w", encoding="utf-8") as it:
        it.write("\n".join(lines) + "\n")


def true_block(words, lines, folder):
    """The block as it should be."""
    if words == "console":
        commands = commands_of(lines)
        made = []
        for command, printed in zip(commands, printed_by(commands, folder)):
            made += [f"$ {command}"] + printed
        return made
    if "shows=" in words:
        with open(f"{folder}/" + re.search(r"shows=(\S+)", words).group(1), encoding="utf-8") as it:
            return it.read().rstrip("\n").split("\n")
    if "file=" in words:
        put_file(words, lines, folder)
    return lines


def true_document(lines, folder):
    """The document with blocks as they should be."""
    made, done = [], 0
    for words, first, last in blocks_of(lines):
        made += lines[done:first] + true_block(words, lines[first:last], folder)
        done = last
    return made + lines[done:]


def differing_copies():
    """The examples of which the program that plays the scripts has another copy."""
    copies = f"{TOP}/crates/test_runs/data"
    names = set(os.listdir(f"{TOP}/examples")) & set(os.listdir(copies))
    return sorted(filecmp.cmpfiles(f"{TOP}/examples", copies, names, shallow=False)[1])


def main(words):
    write = "--write" in words
    program = f"{TOP}/bin/signoff"
    if "--program" in words:
        at = words.index("--program")
        program = os.path.abspath(words[at + 1])
        words = words[:at] + words[at + 2:]
    names = [it for it in words if it != "--write"] or ["README.md", "docs/GUIDE.md", "docs/FAULTS.md"]
    differ = 0
    for name in names:
        with open(f"{TOP}/{name}", encoding="utf-8") as it:
            lines = it.read().split("\n")
        with tempfile.TemporaryDirectory(prefix="signoff-docs-") as folder:
            true = true_document(lines, room_in(folder, program))
        told = list(difflib.unified_diff(lines, true, name, "what it prints", lineterm=""))
        print("\n".join(told) if told else f"{name}: each command prints what stands there")
        differ += bool(told)
        if write and told:
            with open(f"{TOP}/{name}", "w", encoding="utf-8") as it:
                it.write("\n".join(true))
    for name in differing_copies():
        print(f"examples/{name} and crates/test_runs/data/{name} differ")
        differ += 1
    for script in (["lint.py"], ["help.py", "--check"]):
        differ += subprocess.run([sys.executable, f"{TOP}/bench/{script[0]}", *script[1:]], check=False).returncode != 0
    sys.exit(1 if differ and not write else 0)


if __name__ == "__main__":
    main(sys.argv[1:])
