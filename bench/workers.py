"""Writes a module and a set with many hard lines, to see what workers gain: `python3 bench/workers.py BITS LINES FOLDER`.

The module multiplies two words of so many bits; each of the operations says that the product is the one with its factors turned round, so that `ops` has as
many lines that take the solver the same work. `time bin/signoff ops FOLDER/m.v FOLDER/m.set --workers 1`, and with 4, shows the gain.
"""
import sys


def texts(bits, lines):
    names = [f"turned_{i}" for i in range(lines)]
    every = ", ".join(names)
    top = bits - 1
    module = f"""module product(input clk, input rst, input [5:0] pick, input [{top}:0] a, input [{top}:0] b, output reg [{top}:0] q);
  always @(posedge clk)
    if (rst) q <= {bits}'d0;
    else q <= a * b;
endmodule
"""
    sides = [
        f"""operation {name} {{ length 1; assume pick@0 == 6'd{i}; commit q@1 == b@0 * a@0; hand q@0;
  cover q from 1 to 2; next {every}; }}
"""
        for i, name in enumerate(names)
    ]
    head = f"""block product; clock clk; reset rst high 1;
input [5:0] pick; input [{top}:0] a; input [{top}:0] b; output [{top}:0] q;
property reset {{ length 0; commit q@0 == {bits}'d0; cover q from 0 to 1; next {every}; }}
"""
    return module, head + "".join(sides)


def main():
    bits, lines, folder = int(sys.argv[1]), int(sys.argv[2]), sys.argv[3]
    module, properties = texts(bits, lines)
    with open(f"{folder}/m.v", "w") as it:
        it.write(module)
    with open(f"{folder}/m.set", "w") as it:
        it.write(properties)


main()
