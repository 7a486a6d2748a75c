"""Writes the generated texts of a chain of stages, as `demo N` checks them: `python3 bench/chain.py STAGES FOLDER`.

`time bin/signoff check FOLDER/m.v FOLDER/m.set --store FOLDER/kept.db`, twice, shows what kept proofs save.
"""
import sys


def texts(n):
    stages = range(1, n + 1)
    before = lambda name, feed, i: feed if i == 1 else f"{name}{i - 1}"
    module = ["module chain(input clk, input rst, input iv, input [7:0] d, output v, output [7:0] o);\n"]
    module += [f"reg v{i}; reg [7:0] d{i};\n" for i in stages]
    module += [f"assign v = v{n};\nassign o = d{n};\n"]
    module += [
        f"always @(posedge clk) begin if (rst) v{i} <= 1'b0; else v{i} <= {before('v', 'iv', i)}; d{i} <= {before('d', 'd', i)}; end\n"
        for i in stages
    ]
    module += ["endmodule\n"]
    properties = ["block chain; clock clk; reset rst high 1;\ninput iv; input [7:0] d; output v; output [7:0] o when v;\n"]
    properties += [f"property reset {{ length 0; window {n - 1};\n"]
    properties += [f"commit !v@{j};\n" for j in range(n)]
    properties += [f"cover v from 0 to {n}; cover o from 0 to {n}; next pass; }}\n"]
    properties += [f"operation pass {{ length 1; window {n};\ncommit v@{n} == iv@0; commit !iv@0 || o@{n} == d@0;\n"]
    properties += [f"cover v from {n} to {n + 1}; cover o from {n} to {n + 1}; next pass; }}\n"]
    return "".join(module), "".join(properties)


def main():
    stages, folder = int(sys.argv[1]), sys.argv[2]
    module, properties = texts(stages)
    with open(f"{folder}/m.v", "w") as it:
        it.write(module)
    with open(f"{folder}/m.set", "w") as it:
        it.write(properties)


main()
