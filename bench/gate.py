#!/usr/bin/env python3
"""What the gate costs, and where a check's seconds go.

gate.py run [WORD..]        runs `rt ci WORD..` at the top of the repository, and then prints a table: for each crate the processor seconds of
                            its proof, of its tests' proof, of its wrong bodies (with the check that they begin with) and of compiling its tests or
                            its program, and the most memory of one process; below it the wall time, and user and system seconds of all processes
gate.py build [CRATE..]     runs `bin/build CRATE..`, and then prints its wall time, user and system seconds of all processes, and the most memory that all of them
                            had at one time
gate.py where CRATE [N]     of the last `rt check --jobs 1` of a crate from nothing (its out/ removed before): the N functions and the N files that
                            took longest, by the times at which the prover wrote its files
"""
import collections
import os
import re
import resource
import subprocess
import sys
import time

TOP = os.path.dirname(os.path.dirname(os.path.abspath(__file__)))
TICK = os.sysconf("SC_CLK_TCK")
KINDS = ("proof", "tests", "wrong bodies", "compiling")


def stat_of(pid):
    """A process's name, the fields that follow it, and its words."""
    with open(f"/proc/{pid}/stat", encoding="utf-8") as it:
        text = it.read()
    with open(f"/proc/{pid}/cmdline", encoding="utf-8") as it:
        words = it.read().split("\0")
    return text[text.index("(") + 1 : text.rindex(")")], text[text.rindex(")") + 2 :].split(), words


def kind_of(pid, words):
    """What a prover's process works at."""
    if "/rt-edit-" in os.readlink(f"/proc/{pid}/cwd"):
        return "wrong bodies"
    return "tests" if "--test" in words else "proof"


def work_of(pid):
    """The crate and the kind of work of a process, and the fields that follow its name; none where it is neither a prover nor a compiler."""
    name, fields, words = stat_of(pid)
    if name.startswith("clang"):
        # (the prover has LLVM's compiler make the machine code, which for a program takes minutes)
        words, kind = stat_of(fields[1])[2], "compiling"
    elif name in ("rattle", "antt-kernel"):
        kind = "compiling" if "--crate-checked" in words else kind_of(pid, words)
    else:
        return None
    return (words[words.index("--crate-name") + 1], kind, fields) if "--crate-name" in words else None


def below(pid, top):
    """Whether a process was started, at any remove, by another one."""
    while pid not in ("0", "1", top):
        with open(f"/proc/{pid}/stat", encoding="utf-8") as it:
            pid = it.read().rpartition(")")[2].split()[1]
    return pid == top


def sample(seen, top):
    """Notes the processor seconds and the memory of each prover and compiler that a process started."""
    for pid in filter(str.isdigit, os.listdir("/proc")):
        try:
            work = work_of(pid)
            if not work or not below(pid, top):
                continue
            crate, kind, fields = work
            found = seen.setdefault((pid, fields[19]), [crate, kind, 0, 0])
            found[2] = max(found[2], (int(fields[11]) + int(fields[12])) / TICK)
            found[3] = max(found[3], int(fields[21]) * 4096 // 1_000_000)
        except (OSError, ValueError, IndexError):
            pass


def held(top):
    """The megabytes that a process and all that it started hold now. What several of them share counts once (the prover forks)."""
    kilobytes = 0
    for pid in filter(str.isdigit, os.listdir("/proc")):
        try:
            if below(pid, top):
                with open(f"/proc/{pid}/smaps_rollup", encoding="utf-8") as lines:
                    kilobytes += next(int(it.split()[1]) for it in lines if it.startswith("Pss:"))
        except (OSError, StopIteration):
            pass
    return kilobytes * 1024 // 1_000_000


def spent(since):
    """The wall time, and what all processes took that have ended."""
    used = resource.getrusage(resource.RUSAGE_CHILDREN)
    return f"wall {(time.time() - since) / 60:.0f} minutes; user {used.ru_utime / 60:.0f} and system {used.ru_stime / 60:.0f} minutes of all processes"


def build(words):
    """Builds the program, and prints what that cost."""
    most, since = 0, time.time()
    work = subprocess.Popen([f"{TOP}/bin/build", *words], cwd=TOP)
    while work.poll() is None:
        most = max(most, held(str(work.pid)))
        time.sleep(2)
    print(f"{spent(since)}; at most {most} MB at one time")
    return work.returncode


def run(words):
    """Runs the gate, and prints what it cost."""
    seen, since = {}, time.time()
    work = subprocess.Popen(["rt", "ci", *words], cwd=TOP)
    while work.poll() is None:
        sample(seen, str(work.pid))
        time.sleep(0.5)
    cost = spent(since)
    rows = collections.defaultdict(lambda: dict.fromkeys((*KINDS, "MB"), 0))
    for crate, kind, seconds, memory in seen.values():
        rows[crate][kind] += seconds
        rows[crate]["MB"] = max(rows[crate]["MB"], memory)
    print(f"| crate | {' | '.join(KINDS)} | MB |\n|---|---|---|---|---|")
    for crate, row in sorted(rows.items(), key=lambda it: -sum(it[1][kind] for kind in KINDS)):
        print(f"| `{crate}` | {' | '.join(f'{row[kind]:.0f}' if row[kind] else '' for kind in KINDS)} | {row['MB']} |")
    sums = [sum(row[kind] for row in rows.values()) / 60 for kind in KINDS]
    print(f"| all, in minutes | {' | '.join(f'{it:.0f}' for it in sums)} | |")
    print(cost)
    return work.returncode


def subject_of(file):
    """The function that a file of the prover belongs to, or the file."""
    name = re.sub(r"(\.decls)?\.oantt$", "", file).removeprefix("Rattle-")
    found = re.match(r"\w+-proofs\.(.*?)(\.[A-Z]\w*)*$", name)
    return found.group(1) if found and found.group(1) else name


def where(crate, count):
    """Prints where the seconds of a crate's first check went."""
    files = []
    for folder, _, names in os.walk(f"{TOP}/crates/{crate}/out/incremental"):
        files += [(os.stat(f"{folder}/{it}").st_mtime, it) for it in names]
    files.sort()
    single = [(now - before, file) for (before, _), (now, file) in zip(files, files[1:])]
    by_subject = collections.Counter()
    for seconds, file in single:
        by_subject[subject_of(file)] += seconds
    print(f"{crate}: {sum(by_subject.values()):.0f} s")
    for name, seconds in by_subject.most_common(count):
        print(f"{seconds:7.1f}  {name}")
    print("files")
    for seconds, file in sorted(single, reverse=True)[:count]:
        print(f"{seconds:7.1f}  {file}")


if __name__ == "__main__":
    if sys.argv[1:2] == ["run"]:
        sys.exit(run(sys.argv[2:]))
    if sys.argv[1:2] == ["build"]:
        sys.exit(build(sys.argv[2:]))
    if sys.argv[1:2] == ["where"] and len(sys.argv) > 2:
        where(sys.argv[2], int(sys.argv[3]) if len(sys.argv) > 3 else 20)
    else:
        sys.exit(__doc__)
