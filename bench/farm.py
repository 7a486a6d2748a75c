#!/usr/bin/env python3
"""Decides the lines of a check side by side, each by itself as a machine of a farm would, and signs off over the merged stores.

farm.py make FOLDER BITS RESULT
farm.py M S [--only WORD] [--jobs N] [--workers N] [--budget N] [--folder FOLDER] [--program PROGRAM]

`make` writes ring.v and ring.set into FOLDER: 64 operations that follow each other in a ring, each of which multiplies two words of BITS bits to RESULT bits.
The set turns the factors round, so that each line `op` is hard and the others aren't.

`lines M S` gives the names, `trace M S NAME --store PART` decides one on any machine, one SQL statement adds a part's proofs to the whole, and the last
`check M S --store WHOLE` accepts all of them again. Prints the seconds of a check that solves all by itself, of the lines side by side, of the merge and of
the last check, and how many lines each of them had to solve. --jobs is how many lines are decided at a time (as many as there are processors), --only WORD takes the lines of that kind alone (op, hand, ..) and
leaves the others to the last check.
"""
import argparse
import concurrent.futures
import os
import sqlite3
import subprocess
import sys
import tempfile
import time

TOP = os.path.dirname(os.path.dirname(os.path.abspath(__file__)))
TABLE = "CREATE TABLE proofs (key BLOB PRIMARY KEY NOT NULL, bytes BLOB NOT NULL) STRICT"
MERGE = "INSERT OR IGNORE INTO proofs SELECT * FROM part.proofs"


def ring_texts(bits, result):
    """The module of the ring and its set."""
    module = f"""module ring(input clk, input rst, input [{bits - 1}:0] a, input [{bits - 1}:0] b, output reg [{result - 1}:0] y);
  reg [5:0] phase;
  always @(posedge clk)
    if (rst) begin
      phase <= 6'd0;
      y <= {result}'d0;
    end else begin
      phase <= phase + 6'd1;
      y <= (a ^ phase) * b;
    end
endmodule
"""
    properties = f"""block ring; clock clk; reset rst high 1;
input [{bits - 1}:0] a; input [{bits - 1}:0] b; output [{result - 1}:0] y; state [5:0] phase;
property reset {{ length 0; commit phase@0 == 6'd0 && y@0 == {result}'d0; cover y from 0 to 1; next op0; }}
"""
    for k in range(64):
        properties += (f"operation op{k} {{ length 1; assume phase@0 == 6'd{k}; commit phase@1 == 6'd{(k + 1) % 64}; "
                       f"commit y@1 == b@0 * (a@0 ^ 6'd{k}); hand phase@0; cover y from 1 to 2; next op{(k + 1) % 64}; }}\n")
    return module, properties


def make(folder, bits, result):
    """Writes both texts."""
    os.makedirs(folder, exist_ok=True)
    for name, text in zip(("ring.v", "ring.set"), ring_texts(bits, result)):
        with open(f"{folder}/{name}", "w", encoding="ascii") as it:
            it.write(text)


def run(args, *words):
    """Runs the program, and gives its status, its lines and its seconds."""
    since = time.time()
    done = subprocess.run([args.program, *words], stdout=subprocess.PIPE, text=True, check=False)
    return done.returncode, done.stdout.splitlines(), time.time() - since


def options(args, workers):
    return ["--workers", str(workers), "--budget", str(args.budget)]


def decide(args, number, name):
    """Decides one line over a store of its own."""
    part = f"{args.folder}/part{number}.db"
    status, said, seconds = run(args, "trace", args.module, args.set, name, "--store", part, *options(args, 1))
    return name, part, status, said[0] if said else "", seconds


def merge(whole, parts):
    """Puts the proofs of the parts into a new store."""
    with sqlite3.connect(whole) as store:
        store.execute(TABLE)
        for part in parts:
            if os.path.exists(part):
                store.execute("ATTACH ? AS part", (part,))
                store.execute(MERGE)
                store.commit()
                store.execute("DETACH part")
        return store.execute("SELECT COUNT(*) FROM proofs").fetchone()[0]


def main():
    reader = argparse.ArgumentParser(description=__doc__, formatter_class=argparse.RawDescriptionHelpFormatter)
    reader.add_argument("module")
    reader.add_argument("set")
    reader.add_argument("--only", default="")
    reader.add_argument("--jobs", type=int, default=len(os.sched_getaffinity(0)))
    reader.add_argument("--workers", type=int, default=1)
    reader.add_argument("--budget", type=int, default=20_000)
    reader.add_argument("--folder", default=None)
    reader.add_argument("--program", default=f"{TOP}/crates/signoff/out/signoff")
    args = reader.parse_args()
    args.folder = args.folder or tempfile.mkdtemp(prefix="farm-")
    whole = f"{args.folder}/whole.db"
    status, names, seconds = run(args, "lines", args.module, args.set)
    if status:
        sys.exit(f"farm.py: {' '.join(names)}")
    shared = [name for name in names if not args.only or name.split()[0] == args.only]
    print(f"{len(names)} lines, named in {seconds:.2f} s, of which {len(shared)} are shared out")
    status, said, alone = run(args, "check", args.module, args.set, "--store", f"{args.folder}/alone.db", *options(args, args.workers))
    print(f"one machine, {args.workers} workers: {alone:.2f} s, status {status}, {said[-1] if said else ''}")
    since = time.time()
    with concurrent.futures.ThreadPoolExecutor(args.jobs) as lanes:
        ends = list(lanes.map(lambda it: decide(args, *it), enumerate(shared)))
    longest = max(end[4] for end in ends)
    print(f"side by side, {args.jobs} at a time: {time.time() - since:.2f} s, the longest line {longest:.2f} s, all lines together {sum(end[4] for end in ends):.2f} s")
    for name, _, status, said, _ in ends:
        if status:
            print(f"  {name}: status {status}, {said}")
    since = time.time()
    count = merge(whole, [end[1] for end in ends])
    print(f"merged: {count} proofs in {time.time() - since:.2f} s")
    status, said, last = run(args, "check", args.module, args.set, "--store", whole, *options(args, args.workers))
    print(f"the last check: {last:.2f} s, status {status}, {said[-1] if said else ''}")


if __name__ == "__main__":
    if sys.argv[1:2] == ["make"] and len(sys.argv) == 5:
        make(sys.argv[2], int(sys.argv[3]), int(sys.argv[4]))
    else:
        main()
