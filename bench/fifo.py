#!/usr/bin/env python3
"""How long a FIFO in a memory takes to be made a design, beside yosys on the same text.

fifo.py [--program PROGRAM] [--words 8,16,32,64] [--bits 8,64]

Writes a FIFO of so many words of so many bits with a set of a few lines, and times `lines`, which reads both texts, makes the design and binds the set,
and `yosys -p "prep; memory_map"`: the least seconds of three runs, and the megabytes of each.
"""
import argparse
import os
import subprocess
import tempfile
import time

TOP = os.path.dirname(os.path.dirname(os.path.abspath(__file__)))


def texts(words, bits):
    """A FIFO and a set for it."""
    index = words.bit_length() - 1
    module = f"""module fifo(input clk, input rst, input push, input [{bits - 1}:0] din, input pop, output full, output empty, output [{bits - 1}:0] dout);
  reg [{bits - 1}:0] store [0:{words - 1}];
  reg [{index}:0] wr, rd;
  assign full = wr == {{!rd[{index}], rd[{index - 1}:0]}};
  assign empty = wr == rd;
  assign dout = store[rd[{index - 1}:0]];
  always @(posedge clk)
    if (rst) begin
      wr <= {index + 1}'d0;
      rd <= {index + 1}'d0;
    end else begin
      if (push & !full) begin
        store[wr[{index - 1}:0]] <= din;
        wr <= wr + {index + 1}'d1;
      end
      if (pop & !empty) rd <= rd + {index + 1}'d1;
    end
endmodule
"""
    properties = f"""block fifo; clock clk; reset rst high 1;
input push; input [{bits - 1}:0] din; input pop; output full; output empty; output [{bits - 1}:0] dout when full && empty;
state [{index}:0] wr; state [{index}:0] rd;
property reset {{ length 0; commit empty@0 && !full@0 && wr@0 == {index + 1}'d0 && rd@0 == {index + 1}'d0;
  cover full from 0 to 1; cover empty from 0 to 1; cover dout from 0 to 1; next go; }}
operation go {{ length 1; commit empty@1 == (wr@1 == rd@1) && full@1 == (wr@1 - rd@1 == {index + 1}'d{words});
  hand wr@0, rd@0; cover full from 1 to 2; cover empty from 1 to 2; cover dout from 1 to 2; next go; }}
"""
    return module, properties


def timed(words):
    """The least seconds of three runs, and the megabytes of the largest process so far."""
    least = None
    for _ in range(3):
        since = time.time()
        done = subprocess.run(words, stdout=subprocess.DEVNULL, stderr=subprocess.DEVNULL, check=False)
        seconds = time.time() - since
        if done.returncode:
            raise SystemExit(f"fifo.py: status {done.returncode} of {' '.join(words)}")
        least = seconds if least is None else min(least, seconds)
    return least


def largest(words):
    """The most megabytes of one run (GNU time)."""
    done = subprocess.run(["/usr/bin/time", "-f", "%M", *words], stdout=subprocess.DEVNULL, stderr=subprocess.PIPE, text=True, check=False)
    return int(done.stderr.split()[-1]) // 1024


def main():
    reader = argparse.ArgumentParser(description=__doc__, formatter_class=argparse.RawDescriptionHelpFormatter)
    reader.add_argument("--program", default=f"{TOP}/crates/signoff/out/signoff")
    reader.add_argument("--words", default="8,16,32,64")
    reader.add_argument("--bits", default="8,64")
    args = reader.parse_args()
    folder = tempfile.mkdtemp(prefix="fifo-")
    print("| words | bits | signoff s | MB | yosys s | MB |\n|---|---|---|---|---|---|")
    for bits in map(int, args.bits.split(",")):
        for words in map(int, args.words.split(",")):
            module, properties = texts(words, bits)
            with open(f"{folder}/fifo.v", "w", encoding="utf-8") as it:
                it.write(module)
            with open(f"{folder}/fifo.set", "w", encoding="utf-8") as it:
                it.write(properties)
            own = [args.program, "lines", f"{folder}/fifo.v", f"{folder}/fifo.set"]
            peer = ["yosys", "-q", "-p", f"read_verilog {folder}/fifo.v; prep -top fifo; memory_map"]
            figures = [f"{timed(it):.3f} | {largest(it)}" for it in (own, peer)]
            print(f"| {words} | {bits} | {' | '.join(figures)} |", flush=True)


if __name__ == "__main__":
    main()
