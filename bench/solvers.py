#!/usr/bin/env python3
"""An obligation decided by cadical: its clauses, its derivation, and what PROGRAM makes of it.

    solvers.py PROGRAM M S NAME STORE   writes the clauses of the line NAME, has cadical refute them, has PROGRAM accept the derivation
                                        into STORE, and prints the seconds and the bytes of each part
    solvers.py lrat CNF PROOF LRAT      makes LRAT of a proof in DRAT (both as text): each step is checked by unit propagation

A cadical that knows --lrat writes LRAT itself. The proof of an older one, as Debian 12 has, is in DRAT, and is translated here: forwards,
with a step for each literal that follows at the top, so that hints stay short. A step that isn't implied by unit propagation is refused.
"""
import os
import subprocess
import sys
import tempfile
import time


def clauses_of(text):
    """The clauses of a text in DIMACS."""
    lits = []
    for line in text.splitlines():
        if line[:1] not in ("c", "p"):
            for word in line.split():
                if word == "0":
                    yield lits
                    lits = []
                else:
                    lits.append(int(word))


def steps_of(text):
    """The steps of a text in DRAT: whether each is a deletion, and its literals."""
    for line in text.splitlines():
        words = line.split()
        if words and words[0] != "c":
            deletes = words[0] == "d"
            yield deletes, [int(word) for word in words[deletes:-1]]


class Propagation:
    """Clauses with their IDs, and what follows from them by unit propagation.

    `true` has the literals that are true at the top, with the IDs of unit clauses; `reasons` those that are true for now, with the IDs
    of the clauses that force them, or 0 for what is assumed.
    """

    def __init__(self, out):
        self.out = out
        self.clauses = {}
        self.ids = {}
        self.watches = {}
        self.true = {}
        self.reasons = {}
        self.trail = []
        self.next_id = 1
        self.closed = False

    def value(self, lit):
        """True, False, or None."""
        if lit in self.true or lit in self.reasons:
            return True
        return False if -lit in self.true or -lit in self.reasons else None

    def write(self, lits, hints):
        """Writes a step, and gives its ID."""
        number = self.next_id
        self.next_id += 1
        self.out.write(f"{number} {' '.join(map(str, lits + [0] + hints + [0]))}\n")
        return number

    def add(self, lits, number):
        """Adds a clause with its ID, and what follows at the top."""
        lits = list(dict.fromkeys(lits))
        self.ids.setdefault(tuple(sorted(lits)), []).append(number)
        if any(-lit in lits for lit in lits):
            return
        lits.sort(key=lambda lit: self.value(lit) is False)
        self.clauses[number] = lits
        for lit in lits[:2]:
            self.watches.setdefault(lit, []).append(number)
        free = [lit for lit in lits if self.value(lit) is not False]
        if not free:
            self.close(number)
        elif len(free) == 1 and self.value(free[0]) is None:
            self.follow_at_top(free[0], number)

    def forget(self, lits):
        """Deletes a clause, unless it forces a literal at the top."""
        numbers = self.ids.get(tuple(sorted(set(lits))), [])
        free = [lit for lit in set(lits) if lit not in self.true]
        if numbers and len(free) == len(set(lits)):
            self.clauses.pop(numbers.pop(), None)

    def units(self, lits):
        """The IDs of the unit clauses by which these literals are false."""
        return [self.true[-lit] for lit in lits if -lit in self.true]

    def close(self, number):
        """Writes the empty clause, which follows as this clause is false at the top."""
        if not self.closed:
            self.closed = True
            self.write([], self.units(self.clauses[number]) + [number])

    def hold(self, lit, number):
        """Makes a literal true at the top, by a unit clause of its own."""
        lits = self.clauses[number]
        self.true[lit] = number if len(lits) == 1 else self.write([lit], self.units(lits) + [number])
        self.trail.append(lit)

    def follow_at_top(self, lit, number):
        """Makes a literal true at the top, and all that follows."""
        self.hold(lit, number)
        at = len(self.trail) - 1
        while at < len(self.trail) and not self.closed:
            conflict = self.look(self.trail[at], self.hold)
            at += 1
            if conflict:
                self.close(conflict)
        self.trail.clear()

    def force(self, lit, number):
        """Makes a literal true for now."""
        self.reasons[lit] = number
        self.trail.append(lit)

    def look(self, lit, force):
        """Looks at the clauses that watch the negation of a literal that became true. The ID of one that is false, or 0."""
        watching = self.watches.get(-lit, [])
        kept = []
        for at, number in enumerate(watching):
            lits = self.clauses.get(number)
            if lits is None:
                continue
            if len(lits) > 1 and lits[0] == -lit:
                lits[0], lits[1] = lits[1], lits[0]
            if self.value(lits[0]) is not True:
                other = next((k for k in range(2, len(lits)) if self.value(lits[k]) is not False), None)
                if other is not None:
                    lits[1], lits[other] = lits[other], lits[1]
                    self.watches.setdefault(lits[1], []).append(number)
                    continue
                if self.value(lits[0]) is False:
                    self.watches[-lit] = kept + watching[at:]
                    return number
                kept.append(number)
                force(lits[0], number)
            else:
                kept.append(number)
        self.watches[-lit] = kept
        return 0

    def hints(self, conflict, assumed):
        """The IDs, in the order of propagation, of what makes a clause false where these literals are true."""
        needed = set()
        top = set()
        left = [conflict]
        while left:
            for lit in self.clauses[left.pop()]:
                reason = self.reasons.get(-lit)
                if -lit in assumed:
                    continue
                if reason:
                    if -lit not in needed:
                        needed.add(-lit)
                        left.append(reason)
                elif -lit in self.true:
                    top.add(self.true[-lit])
        return sorted(top) + [self.reasons[lit] for lit in self.trail if lit in needed] + [conflict]

    def imply(self, lits):
        """The hints by which a clause follows, or None."""
        assumed = {-lit for lit in lits}
        for lit in lits:
            if lit in self.true:
                return [self.true[lit]]
        for lit in assumed:
            if lit not in self.true:
                self.force(lit, 0)
        conflict, at = 0, 0
        while at < len(self.trail) and not conflict:
            conflict = self.look(self.trail[at], self.force)
            at += 1
        hints = self.hints(conflict, assumed) if conflict else None
        self.trail.clear()
        self.reasons.clear()
        return hints


def translate(cnf, drat, out):
    """Writes LRAT for a proof in DRAT. None, or the step that isn't implied."""
    table = Propagation(out)
    inputs = list(clauses_of(cnf))
    table.next_id = len(inputs) + 1
    for number, lits in enumerate(inputs, 1):
        table.add(lits, number)
    for deletes, lits in steps_of(drat):
        if table.closed:
            return None
        if deletes:
            table.forget(lits)
            continue
        lits = list(dict.fromkeys(lits))
        if any(-lit in lits for lit in lits):
            continue
        hints = table.imply(lits)
        if hints is None:
            return lits
        if lits:
            table.add(lits, table.write(lits, hints))
    return None if table.closed else []


def timed(what, command, out=None):
    """Runs a command, prints its seconds, and gives its status."""
    begun = time.monotonic()
    status = subprocess.run(command, stdout=out, check=False).returncode
    print(f"{what}: {time.monotonic() - begun:.2f} s, status {status}", flush=True)
    return status


def solve(cnf, lrat, folder):
    """Has cadical refute a formula, and writes its derivation in LRAT. Whether it did."""
    known = subprocess.run(["cadical", "--help"], capture_output=True, text=True, check=False).stdout
    options = ["-q", "--no-binary"]
    if "--lrat" in known:
        return timed("cadical", ["cadical", *options, "--lrat", cnf, lrat], subprocess.DEVNULL) == 20
    drat = f"{folder}/drat"
    if timed("cadical", ["cadical", *options, cnf, drat], subprocess.DEVNULL) != 20:
        return False
    print(f"DRAT: {os.path.getsize(drat)} bytes")
    return make_lrat(cnf, drat, lrat)


def make_lrat(cnf, drat, lrat):
    """Translates the file of a proof. Whether each step is implied."""
    begun = time.monotonic()
    with open(cnf, encoding="ascii") as one, open(drat, encoding="ascii") as two, open(lrat, "w", encoding="ascii") as out:
        odd = translate(one.read(), two.read(), out)
    print(f"translation: {time.monotonic() - begun:.2f} s")
    if odd is not None:
        print(f"not implied by unit propagation: {odd}" if odd else "the proof ends before the empty clause")
    return odd is None


def main():
    if sys.argv[1:2] == ["lrat"] and len(sys.argv) == 5:
        return 0 if make_lrat(*sys.argv[2:]) else 1
    if len(sys.argv) != 6:
        print(__doc__)
        return 2
    program, modules, line_set, name, store = sys.argv[1:]
    with tempfile.TemporaryDirectory() as folder:
        cnf, lrat = f"{folder}/cnf", f"{folder}/lrat"
        with open(cnf, "wb") as out:
            if timed("clauses", [program, "clauses", modules, line_set, name], out) != 0:
                return 1
        print(f"DIMACS: {os.path.getsize(cnf)} bytes")
        if not solve(cnf, lrat, folder):
            return 1
        print(f"LRAT: {os.path.getsize(lrat)} bytes")
        return timed("accept", [program, "accept", modules, line_set, name, lrat, "--store", store])


if __name__ == "__main__":
    sys.exit(main())
