"""Writes large modules and sets: `python3 bench/large.py KIND COUNT FOLDER` puts m.v and m.set into FOLDER.

KIND is assigns (a chain of additions in continuous assignments), instances (a chain of instances), blocks (as many combinational as clocked blocks), or
operations (COUNT operations, at most 64, that each may follow each other one, over 64 names; wide-operations: over 256).

`time bin/signoff ops FOLDER/m.v FOLDER/m.set` shows what reading, flattening and elaborating a module take, and `check` what a set's lines do. The same
module by another tool: `time yosys -q -p "read_verilog FOLDER/m.v; prep -top t"`.
"""
import sys

HEAD = "module t(input clk, input rst, input [7:0] i, output [7:0] o);\n"
REGISTER = "reg [7:0] q; assign o = q;\nalways @(posedge clk) if (rst) q <= 8'd0; else q <= {};\nendmodule\n"
SET = """block t; clock clk; reset rst high 1;
input [7:0] i; output [7:0] o;
property reset { length 0; commit o@0 == o@0; cover o from 0 to 1; next step; }
operation step { length 1; window 1; commit o@1 == o@1; cover o from 1 to 2; next step; }
"""


def assigns(n):
    names = "".join(f"wire [7:0] s{k};\n" for k in range(n))
    chain = "".join(f"assign s{k} = s{k - 1} + 8'd1;\n" for k in range(1, n))
    return HEAD + names + "assign s0 = i;\n" + chain + REGISTER.format(f"s{n - 1}"), SET


def instances(n):
    inner = "module inc(input [7:0] a, output [7:0] b);\nassign b = a + 8'd1;\nendmodule\n"
    names = "".join(f"wire [7:0] s{k};\n" for k in range(n + 1))
    chain = "".join(f"inc u{k}(.a(s{k}), .b(s{k + 1}));\n" for k in range(n))
    return inner + HEAD + names + "assign s0 = i;\n" + chain + REGISTER.format(f"s{n}"), SET


def blocks(n):
    text = HEAD + "".join(f"reg [7:0] c{k}; reg [7:0] q{k};\n" for k in range(n)) + f"assign o = q{n - 1};\n"
    for k in range(n):
        before = f"q{k - 1}" if k else "i"
        text += f"always @* begin if ({before}[0]) c{k} = {before} + 8'd1; else c{k} = {before}; end\n"
        text += f"always @(posedge clk) if (rst) q{k} <= 8'd0; else q{k} <= c{k};\n"
    return text + "endmodule\n", SET


def operations(n, names=64):
    inputs = [f"i{k}" for k in range(names - 2)]
    ports = ", ".join(f"input [7:0] {it}" for it in inputs)
    module = f"module t(input clk, input rst, input [5:0] sel, {ports}, output [5:0] q);\n"
    module += "reg [5:0] r; assign q = r;\nalways @(posedge clk) if (rst) r <= 6'd0; else r <= sel;\nendmodule\n"
    follow = ", ".join(f"o{k}" for k in range(n))
    text = "block t; clock clk; reset rst high 1;\ninput [5:0] sel; " + " ".join(f"input [7:0] {it};" for it in inputs) + " output [5:0] q;\n"
    text += f"property reset {{ length 0; commit q@0 == 6'd0; cover q from 0 to 1; next {follow}; }}\n"
    for k in range(n):
        text += f"operation o{k} {{ length 1; assume sel@0 == 6'd{k}; commit q@1 == 6'd{k}; cover q from 1 to 2; next {follow}; }}\n"
    return module, text


def main():
    kinds = {"assigns": assigns, "instances": instances, "blocks": blocks, "operations": operations, "wide-operations": lambda n: operations(n, 256)}
    module, properties = kinds[sys.argv[1]](int(sys.argv[2]))
    with open(f"{sys.argv[3]}/m.v", "w") as it:
        it.write(module)
    with open(f"{sys.argv[3]}/m.set", "w") as it:
        it.write(properties)


main()
