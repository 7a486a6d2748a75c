#!/usr/bin/env python3
"""A module text of about a megabyte, and how long programs take to read it.

    read.py make FILE               writes the text
    read.py time FILE RUNS COMMAND..
                                    the least seconds of processor time and the most memory of RUNS runs of each command.
                                    In a command {} stands for the file
"""

import random
import sys

from sat import run

BYTES = 1_040_000

ASSIGN = """\
  wire [31:0] w{n};
  assign w{n} = ({a} {op} {b}[7:0]) {op2} (a == b ? 32'h{word:x} : {{a[15:0], b[31:16]}});
"""

REGISTER = """\
  reg [31:0] r{n};
  always @(posedge clk) begin
    if (rst) r{n} <= 32'd0;
    else case (w{n}[1:0])
      2'd0: r{n} <= w{n};
      2'd1, 2'd2: r{n} <= ~r{n};
      default: r{n} <= r{n} + 32'd1;
    endcase
  end
"""


def wire(n, source):
    """One wire over two of the ten before it."""
    operand = lambda: source.choice(["a", "b"] + [f"w{m}" for m in range(max(0, n - 10), n)])
    operator = lambda: source.choice("+-&|^")
    return ASSIGN.format(n=n, a=operand(), b=operand(), op=operator(), op2=operator(), word=source.getrandbits(32))


def text(size):
    """One module of wires, each over those before it, with a register at every tenth."""
    source = random.Random(1)
    parts = ["module big(input clk, input rst, input [31:0] a, input [31:0] b, output [31:0] o);\n"]
    length, n = 0, 0
    while length < size:
        parts.append(wire(n, source) + (REGISTER.format(n=n) if n % 10 == 0 else ""))
        length += len(parts[-1])
        n += 1
    parts.append(f"  assign o = w{n - 1};\nendmodule\n")
    return "".join(parts)


def main(args):
    if args[:1] == ["make"] and len(args) == 2:
        with open(args[1], "w") as out:
            out.write(text(BYTES))
    elif args[:1] == ["time"] and len(args) > 3:
        for command in args[3:]:
            runs = [run(command, args[1], 600) for _ in range(int(args[2]))]
            print(f"{min(r[0] for r in runs):8.3f} s {max(r[1] for r in runs):8.1f} MB  {command}", flush=True)
    else:
        print(__doc__)


if __name__ == "__main__":
    main(sys.argv[1:])
