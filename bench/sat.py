#!/usr/bin/env python3
"""Formulas in DIMACS form, and how long solvers take for them.

    sat.py make FOLDER              writes the formulas
    sat.py time FOLDER LIMIT COMMAND..
                                    runs each command on each formula, for at most LIMIT seconds.
                                    In a command {} stands for the file; without it the file is standard input.
    sat.py table FOLDER LIMIT RUNS COMMAND MINISAT CADICAL
                                    runs each of the three RUNS times, and writes the rows of PERFORMANCE.md's table: the least
                                    seconds and the most memory of each, and how many times MINISAT's the first one's are
"""

import os
import random
import resource
import shlex
import signal
import subprocess
import sys


def pigeons(pigeons, holes):
    """Each pigeon has a hole, and no two have one."""
    at = lambda p, h: p * holes + h + 1
    clauses = [[at(p, h) for h in range(holes)] for p in range(pigeons)]
    clauses += [[-at(p, h), -at(q, h)] for h in range(holes) for p in range(pigeons) for q in range(p)]
    return pigeons * holes, clauses


def uniform(variables, seed):
    """Random clauses of three literals, 4.26 for each variable: where half of such formulas can be satisfied."""
    source = random.Random(seed)
    clauses = []
    for _ in range(round(4.26 * variables)):
        clause = [v * source.choice((1, -1)) for v in source.sample(range(1, variables + 1), 3)]
        clauses.append(clause)
    return variables, clauses


def chain(length):
    """Two chains of implications from a unit clause each, one written from its end and one from its beginning."""
    half = length // 2
    clauses = [[1], [half + 1]]
    clauses += [[-i, i + 1] for i in range(half - 1, 0, -1)]
    clauses += [[-i, i + 1] for i in range(half + 1, length)]
    return length, clauses


class Circuit:
    """Gates as clauses. A signal is a literal, or 0 for one that is always false."""

    def __init__(self):
        self.variables = 0
        self.clauses = []

    def free(self):
        self.variables += 1
        return self.variables

    def word(self, width):
        return [self.free() for _ in range(width)]

    def both(self, a, b):
        if a == 0 or b == 0:
            return 0
        out = self.free()
        self.clauses += [[-out, a], [-out, b], [out, -a, -b]]
        return out

    def either(self, a, b):
        if a == 0 or b == 0:
            return a + b
        return -self.both(-a, -b)

    def differ(self, a, b):
        if a == 0 or b == 0:
            return a + b
        out = self.free()
        self.clauses += [[-out, a, b], [-out, -a, -b], [out, -a, b], [out, a, -b]]
        return out

    def choose(self, select, a, b):
        return self.either(self.both(select, a), self.both(-select, b))

    def add(self, xs, ys):
        """The sum, as wide as the words."""
        total, carry = [], 0
        for x, y in zip(xs, ys):
            half = self.differ(x, y)
            total.append(self.differ(half, carry))
            carry = self.either(self.both(x, y), self.both(half, carry))
        return total

    def multiply(self, xs, ys):
        """The product, as wide as both words together."""
        width = len(xs) + len(ys)
        total = [0] * width
        for i, y in enumerate(ys):
            row = [0] * i + [self.both(x, y) for x in xs]
            total = self.add(total, row + [0] * (width - len(row)))
        return total

    def shift(self, xs, amount, stages):
        """The word shifted to the left by the amount, in stages in this order."""
        for i in stages:
            moved = [0] * (1 << i) + xs[: -(1 << i)]
            xs = [self.choose(amount[i], m, x) for m, x in zip(moved, xs)]
        return xs

    def unequal(self, xs, ys):
        """That the words differ."""
        differences = [self.differ(x, y) for x, y in zip(xs, ys)]
        self.clauses.append([d for d in differences if d != 0])
        return self.variables, self.clauses


def commutes(width):
    c = Circuit()
    x, y = c.word(width), c.word(width)
    return c.unequal(c.multiply(x, y), c.multiply(y, x))


def associates(width):
    c = Circuit()
    x, y, z = c.word(width), c.word(width), c.word(width)
    return c.unequal(c.add(c.add(x, y), z), c.add(x, c.add(y, z)))


def shifts(width):
    """A barrel shifter beside one with its stages the other way round."""
    c = Circuit()
    x, amount = c.word(width), c.word(width.bit_length() - 1)
    stages = range(len(amount))
    return c.unequal(c.shift(x, amount, stages), c.shift(x, amount, reversed(stages)))


TITLES = {
    "pigeons-8-7": "pigeons 8 in 7",
    "pigeons-9-8": "pigeons 9 in 8",
    "uniform-150": "random 3-SAT, 150 variables",
    "uniform-180": "180",
    "uniform-200": "200",
    "uniform-220": "220",
    "multiply-5": "multiplier commutes, 5 bits",
    "multiply-6": "6 bits",
    "multiply-7": "7 bits",
    "add-8": "adders associate, 8 bits",
    "add-12": "12 bits",
    "add-16": "16 bits",
    "shift-32": "barrel shifters, 32 bits",
    "shift-64": "64 bits",
    "chain-600000": "chain of 600,000 clauses",
}

FORMULAS = {
    "pigeons-8-7": lambda: pigeons(8, 7),
    "pigeons-9-8": lambda: pigeons(9, 8),
    "uniform-150": lambda: uniform(150, 1),
    "uniform-180": lambda: uniform(180, 2),
    "uniform-200": lambda: uniform(200, 3),
    "uniform-220": lambda: uniform(220, 4),
    "multiply-5": lambda: commutes(5),
    "multiply-6": lambda: commutes(6),
    "multiply-7": lambda: commutes(7),
    "add-8": lambda: associates(8),
    "add-12": lambda: associates(12),
    "add-16": lambda: associates(16),
    "shift-32": lambda: shifts(32),
    "shift-64": lambda: shifts(64),
    "chain-600000": lambda: chain(600000),
}


def write(path, formula):
    variables, clauses = formula
    with open(path, "w") as out:
        out.write(f"p cnf {variables} {len(clauses)}\n")
        for clause in clauses:
            out.write(" ".join(map(str, clause)) + " 0\n")


def run(command, path, limit):
    """The seconds of processor time, the megabytes, and the first line of the answer."""
    named = "{}" in command
    words = shlex.split(command.replace("{}", path))
    before = resource.getrusage(resource.RUSAGE_CHILDREN)
    with open("/dev/null" if named else path) as text:
        words = ["/usr/bin/time", "-f", "%M"] + words
        process = subprocess.Popen(words, stdin=text, stdout=subprocess.PIPE, stderr=subprocess.PIPE, start_new_session=True)
        try:
            out, err = process.communicate(timeout=limit)
        except subprocess.TimeoutExpired:
            os.killpg(process.pid, signal.SIGKILL)
            out, err = process.communicate()
    after = resource.getrusage(resource.RUSAGE_CHILDREN)
    words = [w for w in out.decode(errors="replace").split() if "SATISFIABLE" in w]
    memory = err.split()[-1].decode() if err.split() else "0"
    kilobytes = int(memory) if memory.isdigit() else 0
    return after.ru_utime - before.ru_utime, kilobytes / 1024, words[0] if words else "none"


def best(command, path, limit, runs):
    """The least seconds and the most megabytes of several runs."""
    results = [run(command, path, limit) for _ in range(runs)]
    return min(r[0] for r in results), max(r[1] for r in results)


def row(name, path, limit, runs, commands):
    """A row of PERFORMANCE.md's table."""
    (ours, mine), (theirs, other), (third, _) = (best(c, path, limit, runs) for c in commands)
    ratios = f"{ours / max(theirs, 0.001):.1f}, {mine / max(other, 0.1):.1f}"
    return f"| {TITLES[name]} | {ours:.3f} s, {mine:.0f} MB | {theirs:.3f}, {other:.1f} | {third:.3f} | {ratios} |"


def main(args):
    if args[:1] == ["make"] and len(args) == 2:
        os.makedirs(args[1], exist_ok=True)
        for name, make in FORMULAS.items():
            write(os.path.join(args[1], name + ".cnf"), make())
    elif args[:1] == ["time"] and len(args) > 3:
        for name in FORMULAS:
            for command in args[3:]:
                seconds, megabytes, answer = run(command, os.path.join(args[1], name + ".cnf"), float(args[2]))
                print(f"{name:14} {seconds:8.3f} s {megabytes:8.1f} MB  {answer:15} {command}", flush=True)
    elif args[:1] == ["table"] and len(args) == 7:
        for name in FORMULAS:
            path = os.path.join(args[1], name + ".cnf")
            print(row(name, path, float(args[2]), int(args[3]), args[4:]), flush=True)
    else:
        print(__doc__)


if __name__ == "__main__":
    main(sys.argv[1:])
