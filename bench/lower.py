#!/usr/bin/env python3
"""How much of a folder of RTL bin/lower puts into the subset, as Markdown tables.

    lower.py FOLDER [PROGRAM]
    lower.py --cases [LOWER]

With --cases it runs the texts of bench/lowering instead, each of which says in its first lines what bin/lower makes of it (cases_of has the
words); LOWER is another bin/lower. It ends with status 1 where one of them doesn't hold.

As many modules at a time as there are processors. Each module of FOLDER with a clocked block is taken as a top, with the files in which the modules below it stand. PROGRAM is a build of
signoff, by default the one that bin/signoff has: it tells which modules are read as they are, and which once they are lowered. Where there
is none these two rows are left out: a module then counts where bin/lower writes it and iverilog takes what it wrote.
"""
import collections
import concurrent.futures
import os
import re
import signal
import subprocess
import sys
import tempfile

TOP = os.path.dirname(os.path.dirname(os.path.abspath(__file__)))
CASES = f"{TOP}/bench/lowering"
MOST_SECONDS = 90
REJECTED = 3
SET = "block {top}; clock clk; reset rst high 1; input any; property reset {{ length 0; next all; }} operation all {{ length 1; next all; }}\n"
CAUSES = [
    ("is missing|does not contain module", "a module below isn't in the folder"),
    ("differs from the original|a difference from the original", "the comparison finds a difference"),
    ("^includes? file|[Ii]nclude", "an include file isn't in the folder"),
    ("is a latch", "a latch"),
    ("several clocks|both edges", "several clocks, or both edges of one"),
    ("clock of .* is no input|is read as a signal|clock is a bit", "a clock that is computed, or read as a signal"),
    ("asynchronous reset of", "an asynchronous reset that is computed"),
    (r"\$dffsr|\$aldff", "an asynchronous set and reset, or an asynchronous load"),
    ("reads z|tristate|inout", "a tristate or an inout"),
    ("bits; at most 64 fit|bits; less than", "a word of more than 64 bits"),
    ("memory .* at most", "a memory with more than 4,096 bits"),
    ("depends on itself", "a loop through a vector or a gate"),
    ("no form in the subset", "another cell of yosys"),
    ("iverilog: |yosys: ", "a text that iverilog or yosys rejects"),
    ("seconds", f"more than {MOST_SECONDS} seconds"),
]


def ended(command):
    """Status and the lines of stderr and stdout; a command that takes too long is ended with what it started, and has no status."""
    with subprocess.Popen(command, stdin=subprocess.DEVNULL, stdout=subprocess.PIPE, stderr=subprocess.STDOUT, text=True, errors="replace",
                          start_new_session=True) as it:
        try:
            said = it.communicate(timeout=MOST_SECONDS)[0].strip().split("\n")
        except subprocess.TimeoutExpired:
            os.killpg(it.pid, signal.SIGKILL)
            return None, ["seconds"]
    return it.returncode, said


def texts_in(folder):
    """The Verilog files, each with its text without comments."""
    for place, _, names in sorted(os.walk(folder)):
        for name in sorted(names):
            if name.endswith((".v", ".sv")):
                with open(os.path.join(place, name), encoding="utf-8", errors="replace") as it:
                    yield os.path.join(place, name), re.sub(r"//[^\n]*|/\*.*?\*/", " ", it.read(), flags=re.S)


def modules_in(folder):
    """The modules with their files, and those of them that have a clocked block."""
    files, clocked = {}, []
    for name, text in texts_in(folder):
        for found in re.finditer(r"\bmodule\s+(\w+)(.*?)\bendmodule\b", text, flags=re.S):
            files.setdefault(found.group(1), name)
            if re.search(r"\balways(_ff)?\s*@\s*\(\s*(posedge|negedge)\b", found.group(2)):
                clocked.append((found.group(1), name))
    return files, clocked


def lowered(top, name, files, made):
    """Whether bin/lower writes the module, and what it tells; the files of modules below are added as they are missed."""
    taken = [name]
    while True:
        status, said = ended([f"{TOP}/bin/lower", "-I", os.path.dirname(name), "-o", made, top] + taken)
        missing = re.search(r"module (\w+) is missing", said[-1])
        if not missing or files.get(missing.group(1), name) in taken:
            return status == 0, said
        taken.append(files[missing.group(1)])


def is_read(program, top, text, room):
    """Whether the program reads the module: it rejects the set then, or what the two make together."""
    with open(f"{room}/all.set", "w", encoding="ascii") as it:
        it.write(SET.format(top=top))
    return ended([program, "check", text, f"{room}/all.set"])[0] != REJECTED


class Judge:
    """What becomes of a module: whether it was written, read as it is, read once lowered, and why not."""

    def __init__(self, program, files):
        self.program, self.files = program, files

    def __call__(self, module):
        top, name = module
        counts = collections.Counter()
        with tempfile.TemporaryDirectory(prefix="lower-bench-") as room:
            made = f"{room}/made.v"
            done, said = lowered(top, name, self.files, made)
            if done:
                status, last = ended(["iverilog", "-g2005", "-t", "null", made])
                counts.update(compared(said))
                done, said = status == 0, last if status is None else ["iverilog rejects what was written"]
            counts["written"] += done
            if self.program:
                counts["as it is"] += is_read(self.program, top, name, room)
                if done and not is_read(self.program, top, made, room):
                    done, said = False, ["written, but signoff rejects it"]
                counts["lowered"] += done
        if not done:
            print(f"{top} in {name}: {said[-1]}", file=sys.stderr)
        return counts, None if done else cause_of("\n".join(said[-2:]))


def compared(said):
    """Whether some cycles of what was written were compared with the original."""
    found = [int(it) for it in re.findall(r"compared with the original in iverilog: (\d+)", "\n".join(said))]
    return ["compared" if found and found[0] else "not compared"]


def cause_of(said):
    return next((cause for pattern, cause in CAUSES if re.search(pattern, said)), said)


# ---- the cases

def cases_of(folder):
    """The texts with what their first lines say: the words of bin/lower (lower), its status (0 where none is told), lines that stderr has
    (tells) or hasn't (silent), what the text has (writes) or hasn't (lacks), and its outputs after cycles with inputs (gives)."""
    for name in sorted(os.listdir(folder)):
        if name.endswith((".v", ".sv")):
            with open(f"{folder}/{name}", encoding="utf-8") as it:
                said = re.findall(r"^// (lower|status|tells|silent|writes|lacks|gives): *(.*)$", it.read(), flags=re.M)
            yield name, [value for key, value in said if key == "lower"][0], [it for it in said if it[0] != "lower"]


def bench_of(text, steps, expected):
    """A test bench that gives a module inputs, a clock edge after each step but the last, and prints its outputs."""
    top, ports = re.match(r"module (\S+)\((.*)\);", text).groups()
    ports = re.findall(r"(input|output) (?:wire|reg) (\[\d+:0\] )?(\S+?)(?:,|$)", ports)
    lines = ["module bench;"] + [f"{'reg' if way == 'input' else 'wire'} {span}{name};" for way, span, name in ports]
    lines.append(f"{top} it({', '.join(f'.{name}({name})' for _, _, name in ports)});")
    lines.append("initial begin " + " ".join(f"{name} = 0;" for way, _, name in ports if way == "input"))
    clock = "clk = 1; #1 clk = 0; #1" if any(name == "clk" for _, _, name in ports) else ""
    for at, step in enumerate(steps):
        lines += [f"{it};" for it in step.split()] + ["#1"] + ([clock] if at + 1 < len(steps) else [])
    shown = [it.partition("=")[0] for it in expected]
    lines.append(f'$display("{" ".join(f"{it}=%0d" for it in shown)}", {", ".join(shown)}); end')
    return "\n".join(lines + ["endmodule", ""])


def gives(text, value, room):
    """What is wrong with a line that says what the text computes, or None."""
    steps, _, expected = value.partition(" -> ")
    with open(f"{room}/bench.v", "w", encoding="ascii") as out:
        out.write(bench_of(text, steps.split(";"), expected.split()))
    status, said = ended(["iverilog", "-g2005", "-s", "bench", "-o", f"{room}/bench", f"{room}/bench.v", f"{room}/made.v"])
    if status:
        return f"gives {value}: iverilog: {said[0]}"
    status, said = ended(["vvp", "-n", f"{room}/bench"])
    return None if said[-1].split() == expected.split() else f"gives {value}: it gives {said[-1]}"


def failures(said, lower, words, room):
    """What of a case doesn't hold."""
    status, lines = ended([lower, "-o", f"{room}/made.v"] + words.split())
    told = dict(said).get("status", "0")
    if str(status) != told:
        return [f"status {status} in the place of {told}: {lines[-1]}"]
    text = ""
    if os.path.exists(f"{room}/made.v"):
        with open(f"{room}/made.v", encoding="ascii") as it:
            text = it.read()
    found = {"tells": lambda it: any(re.match(f"lower: {it}", line) for line in lines), "writes": lambda it: re.search(it, text),
             "silent": lambda it: not re.search(it, "\n".join(lines)), "lacks": lambda it: text and not re.search(it, text)}
    bad = [f"{key} {value}" for key, value in said if key in found and not found[key](value)]
    bad += [it for it in (gives(text, value, room) for key, value in said if key == "gives") if it]
    return bad + ([f"status {status}, and a text is written"] if status and text else [])


def run_cases(lower):
    """Runs all cases; the table has those that don't hold."""
    os.chdir(CASES)
    rows, count = [], 0
    for name, words, said in cases_of("."):
        count += 1
        with tempfile.TemporaryDirectory(prefix="lower-case-") as room:
            rows += [(name, it) for it in failures(said, lower, words, room)]
    table(("cases", "number"), [("run", count), ("that hold", count - len({name for name, _ in rows}))])
    if rows:
        table(("case", "what doesn't hold"), rows)
    return int(bool(rows))


def table(head, rows):
    print(f"| {' | '.join(head)} |\n|{'---|' * len(head)}")
    for row in rows:
        print(f"| {' | '.join(str(it) for it in row)} |")
    print()


def main(words):
    if not 1 <= len(words) <= 2:
        sys.exit(__doc__)
    if words[0] == "--cases":
        return run_cases(os.path.abspath(words[1]) if len(words) > 1 else f"{TOP}/bin/lower")
    program = words[1] if len(words) > 1 else f"{TOP}/crates/signoff/out/signoff"
    program = program if os.access(program, os.X_OK) else None
    files, clocked = modules_in(words[0])
    counts, causes = collections.Counter(), collections.Counter()
    with concurrent.futures.ThreadPoolExecutor(len(os.sched_getaffinity(0))) as pool:
        for counted, cause in pool.map(Judge(program, files), clocked):
            counts.update(counted)
            causes.update([cause] if cause else [])
    rows = [("with a clocked block", len(clocked)), ("written by bin/lower", counts["written"])]
    rows += [("of these, the same as the original in a simulation", counts["compared"]), ("of these, not compared", counts["not compared"])]
    if program:
        rows += [("read by signoff as they are", counts["as it is"]), ("read by signoff once lowered", counts["lowered"])]
    share = lambda count: f"{100 * count / max(1, len(clocked)):.0f} %"
    table(("modules", "number", "share"), [(what, count, share(count)) for what, count in rows])
    table(("cause of the rest", "number", "share"), [(cause, count, share(count)) for cause, count in causes.most_common()])


if __name__ == "__main__":
    sys.exit(main(sys.argv[1:]))
