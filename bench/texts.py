#!/usr/bin/env python3
"""What the worst texts cost: each production of both languages, nested and repeated, up to the greatest size of a text.

texts.py --program PROGRAM [--command WORD] [--most BYTES] [--doublings N] [--seconds S] [--memory MB] [KIND..]

For each kind of text it runs `PROGRAM check M S` on texts of doubling sizes, the last of MOST bytes (1,048,576), and writes a row of a table in Markdown:
the greatest size that ended within the seconds of processor time and the memory, what the program answered there, its seconds and memory, and the
exponents of both over the last doubling (1 is linear, 2 quadratic). A kind that doesn't end at a size is told with that size. With no KIND all are run;
`--list` names them. With `--command lines` the texts are read, elaborated and bound, and no line is decided. A text whose size the language bounds by itself, as that of a set's 256 names, is as large as it may be.
"""
import argparse
import math
import os
import resource
import subprocess
import sys
import tempfile
import time

HEIGHT = 480  # of the 500 that a tree may have, the rest is what stands around an expression
PORTS = "input clk, input rst, input [7:0] i, output [7:0] o"
REGISTER = "reg [7:0] q; assign o = q;\nalways @(posedge clk) if (rst) q <= 8'd0; else q <= i;\nendmodule\n"
SET_HEAD = "block t; clock clk; reset rst high 1;\ninput [7:0] i; output [7:0] o;\n"
SET_RESET = "property reset { length 0; commit o@0 == 8'd0; cover o from 0 to 1; next step; }\n"
SET_STEP = "operation step { length 1; commit o@1 == i@0; cover o from 1 to 2; next step; }\n"
SET = SET_HEAD + SET_RESET + SET_STEP


# ---- texts by repetition


def repeated(size, unit):
    """As many units as have this size, each made of its number."""
    parts, length, k = [], 0, 0
    while length < size:
        parts.append(unit(k))
        length += len(parts[-1])
        k += 1
    return "".join(parts)


def listed(size, unit, separator=","):
    """The same, with a separator between each two."""
    return repeated(size, lambda k: (separator if k else "") + unit(k))


def module(body="", before=""):
    return f"{before}module t({PORTS});\n{body}{REGISTER}"


def wire(k, expression, width="[7:0] "):
    return f"wire {width}w{k} = {expression};\n"


def items(unit):
    """A kind whose module has as many of these items as its size allows."""
    return lambda size: (module(repeated(size, unit)), SET)


def expressions(expression, declared="", width="[7:0] "):
    """A kind whose module has as many wires of this value as its size allows."""
    return lambda size: (module(declared + repeated(size, lambda k: wire(k, expression, width))), SET)


def nested(inner, open_, close, height=HEIGHT):
    return open_ * height + inner + close * height


def property_text(clauses="", rules="", declared=""):
    step = f"operation step {{ length 1; {clauses}commit o@1 == i@0; cover o from 1 to 2; next step; }}\n"
    return SET_HEAD + declared + rules + SET_RESET + step


def clauses(unit):
    """A kind whose operation has as many of these clauses as its size allows."""
    return lambda size: (module(), property_text(repeated(size, unit)))


def rules(word, count=64, offset="@0"):
    """A kind of COUNT constraints or invariants, each a conjunction as long as the size allows."""

    def text(size):
        each = size // count
        one = lambda k: f"{word} r{k}: {balanced(each, offset)};\n"
        return module(), property_text(rules="".join(map(one, range(count))))

    return text


def balanced(size, offset="@0"):
    """A conjunction of this size whose height is the logarithm of its size."""
    leaf = f"(i{offset} != 8'd255)"
    tree = lambda n: leaf if n == 1 else f"({tree(n // 2)} && {tree(n - n // 2)})"
    return tree(max(1, size // (len(leaf) + 6)))


# ---- texts of the module language


def long_name(size):
    name = "n" * (size // 2)
    return module(f"wire {name}; assign {name} = 1'b0;\n"), SET


def header_parameters(size):
    chain = listed(size, lambda k: f"parameter [7:0] P{k} = " + (f"P{k - 1} + 8'd1" if k else "8'd0"))
    return f"module t #({chain}) ({PORTS});\n{REGISTER}", SET


def header_ports(size):
    inner = "module s(" + listed(size, lambda k: f"input a{k}") + ");\nendmodule\n"
    return module(before=inner), SET


def named_ports(size):
    names = lambda part: listed(part, lambda k: f"a{k}")
    return module(before=f"module s({names(size // 2)});\ninput {names(size // 2)};\nendmodule\n"), SET


def connected_ports(size):
    """An instance whose ports are all connected by name."""
    count = size // 40
    inner = "module s(" + ", ".join(f"input a{k}" for k in range(count)) + ");\nendmodule\n"
    return module("s u(" + ", ".join(f".a{k}(i[0])" for k in range(count)) + ");\n", inner), SET


def driven_back(size):
    """A chain of assignments, the last one first."""
    count = size // 50
    names = "".join(f"wire [7:0] w{k};\n" for k in range(count))
    chain = "".join(f"assign w{k} = w{k + 1} + 8'd1;\n" for k in range(count - 1))
    return module(names + chain + f"assign w{count - 1} = i;\n"), SET


def one_block(unit):
    """A kind whose combinational block does this with each of as many signals as its size allows."""

    def text(size):
        count = size // (len(f"reg [7:0] c1000;\n{unit}") - 2 * unit.count("NUMBER"))
        many = "".join(unit.replace("NUMBER", str(k)) for k in range(count))
        names = "".join(f"reg [7:0] c{k};\n" for k in range(count))
        return module(f"{names}always @* begin\n{many}end\n"), SET

    return text


def chained(count):
    """Signals, statements that give each the next one's value and the last one the input, and such that give each the input."""
    names = "".join(f"reg [7:0] c{k};\n" for k in range(count))
    given = "".join(f"c{k} = c{k + 1};\n" for k in range(count - 1))
    return names, f"{given}c{count - 1} = i;\n", "".join(f"c{k} = i;\n" for k in range(count))


def block_from_its_end(size):
    """A combinational block that gives each signal the next one's value, so that each has to be solved before the one before it."""
    names, given, _ = chained(size // 33)
    return module(f"{names}always @* begin\n{given}end\n"), SET


def block_from_its_end_within_an_if(size):
    """The same in a branch of an `if`."""
    names, given, other = chained(size // 45)
    return module(f"{names}always @* if (i[0]) begin\n{given}end else begin\n{other}end\n"), SET


def block_from_its_end_within_a_case(size):
    """The same in an item of a `case`."""
    names, given, other = chained(size // 45)
    return module(f"{names}always @* case (i)\n8'd1: begin\n{given}end\ndefault: begin\n{other}end\nendcase\n"), SET


def block_from_its_end_over_items(size):
    """A chain whose signals are given in an item of one `case` each, so that all of them share its labels."""
    count = size // 75
    names = "".join(f"reg [7:0] d{k};\nwire [7:0] c{k} = d{k};\n" for k in range(count))
    zero = "".join(f"d{k} = 8'd0;\n" for k in range(count))
    chosen = "".join(f"16'd{k}: d{k} = c{k + 1};\n" for k in range(count - 1))
    return module(f"{names}always @* begin\n{zero}case ({{i, i}})\n{chosen}endcase\nend\n"), SET


def block_from_its_end_over_items_and_a_default(size):
    """The same, with a default that gives all of them."""
    count = size // 95
    names = "".join(f"reg [7:0] d{k};\nwire [7:0] c{k} = d{k};\n" for k in range(count))
    zero = "".join(f"d{k} = 8'd0;\n" for k in range(count))
    chosen = "".join(f"16'd{k}: d{k} = c{k + 1};\n" for k in range(count - 1))
    other = "".join(f"d{k} = i;\n" for k in range(count))
    return module(f"{names}always @* begin\n{zero}case ({{i, i}})\n{chosen}default: begin\n{other}end\nendcase\nend\n"), SET


def halved(parts):
    """An exclusive or of these, in halves, so that it isn't high."""
    middle = len(parts) // 2
    return f"({halved(parts[:middle])} ^ {halved(parts[middle:])})" if middle else parts[0]


def block_from_its_end_under_a_condition(size):
    """A chain within an `if` whose condition is as long as the chain."""
    names, given, other = chained(size // 90)
    condition = halved([f"i[{k % 8}]" for k in range(size // 18)])
    return module(f"{names}always @* if ({condition}) begin\n{given}end else begin\n{other}end\n"), SET


def block_from_its_end_behind_statements(size):
    """A chain each of whose signals takes what as many statements before it make."""
    count = size // 60
    names, given, _ = chained(count)
    sums = "".join("s = s ^ (s << 1);\n" for _ in range(count))
    return module(f"{names}reg [7:0] s;\nalways @* begin\ns = i;\n{sums}{given.replace(';', ' + s;')}end\n"), SET


def block_from_its_end_behind_parts(size):
    """A chain that takes a vector of which as many statements before it assign parts, and which is solved behind the chain."""
    count = size // 70
    names, given, _ = chained(count)
    parts = "".join(f"y[{k % 8}] = i[{3 * k % 8}] ^ i[{k // 8 % 8}];\n" for k in range(count))
    return module(f"{names}reg [7:0] y;\nalways @* begin\n{parts}{given.replace(';', ' ^ y;')}end\n"), SET


def block_of_vectors_in_turn(size, part=lambda k: f"i[{k % 8}]"):
    """Signals that each take an exclusive or of all vectors of which the block assigns parts."""
    count = size // 114
    names = "".join(f"reg [1:0] v{k};\nwire x{k} = i[0];\nreg [1:0] c{k};\n" for k in range(count))
    parts = "".join(f"v{k}[0] = {part(k)};\nv{k}[1] = {part(3 * k)};\n" for k in range(count))
    sums = "".join(f"s = s ^ v{k};\n" for k in range(count))
    given = "".join(f"c{k} = s;\n" for k in range(count))
    return module(f"{names}reg [1:0] s;\nalways @* begin\ns = 2'd0;\n{parts}{sums}{given}end\n"), SET


def block_of_constant_vectors(size):
    """The same, where the parts are constants, so that no nodes come of them."""
    return block_of_vectors_in_turn(size, lambda k: "1'b1")


def block_of_vectors_between(size):
    """Signals that each take all vectors as they stand before the block assigns parts of them once more. Each signal depends on the one before it, and each
    vector on such a signal, so that no order of the nets has two of the signals without a vector between them."""
    count = size // 160
    names = "".join(f"reg [1:0] v{k};\nreg c{k};\nwire x{k} = c{k};\n" for k in range(count))
    first = "".join(f"v{k}[0] = 1'b0;\nv{k}[1] = 1'b0;\n" for k in range(count))
    sums = "".join(f"s = s ^ v{k}[0];\n" for k in range(count))
    given = "".join(f"c{k} = s" + (f" ^ x{k - 1};\n" if k else ";\n") for k in range(count))
    last = "".join(f"v{k}[0] = x{k} | 1'b1;\nv{k}[1] = 1'b0;\n" for k in range(count))
    return module(f"{names}reg s;\nalways @* begin\ns = 1'b0;\n{first}{sums}{given}{last}end\n"), SET


def block_of_pairs(size):
    """A combinational block each of whose signals depends on each of as many wires: the pairs are quadratic in the text."""
    count = size // 56
    names = "".join(f"wire a{k} = i[0];\nreg c{k};\n" for k in range(count))
    joined = "".join(f"s = s ^ a{k};\n" for k in range(count))
    given = "".join(f"c{k} = s;\n" for k in range(count))
    return module(f"{names}reg s;\nalways @* begin\ns = 1'b0;\n{joined}{given}end\n"), SET


def case_of_block(size):
    """A combinational block whose case has an item for each of many signals."""
    count = size // 60
    names = "".join(f"reg [7:0] c{k};\n" for k in range(count))
    zero = "".join(f"c{k} = 8'd0;\n" for k in range(count))
    chosen = "".join(f"16'd{k}: c{k} = i;\n" for k in range(count))
    return module(f"{names}always @* begin\n{zero}case ({{i, i}})\n{chosen}endcase\nend\n"), SET


def many_blocks(size):
    return module(repeated(size, lambda k: f"reg [7:0] c{k};\nalways @* if (i[0]) c{k} = i; else c{k} = 8'd0;\n")), SET


def clocked_block(size):
    """A clocked block that assigns many signals."""
    count = size // 35
    names = "".join(f"reg [7:0] c{k};\n" for k in range(count))
    return module(names + "always @(posedge clk) begin\n" + "".join(f"c{k} <= i;\n" for k in range(count)) + "end\n"), SET


def one_signal(size):
    """A combinational block that assigns one signal many times, each time of itself."""
    body = repeated(size, lambda k: "c = c + 8'd1;\n")
    return module(f"reg [7:0] c;\nalways @* begin c = i;\n{body}end\n"), SET


def events(size):
    count = size // 40
    names = "".join(f"wire a{k} = i[0];\n" for k in range(count))
    block = "always @(" + " or ".join(f"a{k}" for k in range(count)) + ") c = " + " ^ ".join(f"a{k}" for k in range(400)) + ";\n"
    return module(names + "reg c;\n" + block), SET


def statements(statement):
    """A kind of combinational blocks with this statement."""
    return items(lambda k: f"reg [7:0] c{k};\nalways @* begin c{k} = 8'd0; {statement.replace('TARGET', f'c{k}')} end\n")


def else_chain(height=HEIGHT):
    return "".join(f"if (i == 8'd{k % 256}) TARGET = 8'd{k % 256}; else " for k in range(height)) + ";"


def case_nest(word="case", height=HEIGHT // 2):
    return f"{word} (i) 8'd1: " * height + "TARGET = 8'd1;" + " endcase" * height


def case_items(size):
    body = repeated(size, lambda k: f"8'd{k % 256}: c = 8'd{k % 256};\n")
    return module(f"reg [7:0] c;\nalways @* begin c = 8'd0;\ncase (i)\n{body}endcase end\n"), SET


def case_labels(word):
    def text(size):
        labels = listed(size, lambda k: f"8'd{k % 256}")
        return module(f"reg [7:0] c;\nalways @* begin c = 8'd0;\n{word} (i)\n{labels}: c = 8'd1;\nendcase end\n"), SET

    return text


def full_case(size):
    """A case whose labels are all values of its expression, which alone makes it set its signal on every path."""
    bits = max(4, int(math.log2(size / 19)))
    labels = "".join(f"{bits}'d{k}: c = i;\n" for k in range(2**bits))
    name = f"wire [{bits - 1}:0] x = i;\nreg [7:0] c;\n"
    return module(f"{name}always @* case (x)\n{labels}endcase\n"), SET


def instance_chain(size):
    """Instances within one another, 4,000 at most, whose names share the size: their paths are quadratic in it."""
    depth = min(4000, size // 128)
    name = "u" * max(1, size // depth - 90)
    inner = [f"module m0(input a, output b); assign b = a; endmodule\n"]
    inner += [f"module m{k}(input a, output b); m{k - 1} {name}(.a(a), .b(b)); endmodule\n" for k in range(1, depth)]
    return module(f"wire w;\nm{depth - 1} u(.a(i[0]), .b(w));\n", "".join(inner)), SET


def instance_list(size):
    inner = "module s(input a); endmodule\n"
    count = min(4000, size // 20)
    filler = " " * max(0, size // count - 20)
    return module("s " + ", ".join(f"u{k}({filler}i[0])" for k in range(count)) + ";\n", inner), SET


def instance_tree(size):
    """Modules that each have two instances of the next, 2,047 in all, whose wires share the size."""
    body = repeated(size // 11, lambda k: f"wire w{k} = a;\n")
    inner = "".join(
        f"module m{k}(input a);\n{body}" + (f"m{k - 1} u(a); m{k - 1} v(a);\n" if k else "") + "endmodule\n" for k in range(10)
    )
    return module("m9 u(i[0]), v(i[0]);\n", inner), SET


def copies(size):
    """A module of half the size, with an instance for each 256 bytes of it."""
    body = repeated(size // 2, lambda k: f"wire w{k} = a;\n")
    count = min(4000, size // 256)
    return module("".join(f"s u{k}(i[0]);\n" for k in range(count)), f"module s(input a);\n{body}endmodule\n"), SET


def overrides(size):
    count = size // 60
    inner = "module s #(" + ", ".join(f"parameter P{k} = 1" for k in range(count)) + ") (input a); endmodule\n"
    return module("s #(" + ", ".join(f".P{k}(2)" for k in range(count)) + ") u(i[0]);\n", inner), SET


def counted(height=HEIGHT // 2):
    """Counts in counts: each is the value of the one inside it."""
    return "{" * height + "1'd1" + "{1'd1}}" * height


# ---- texts of the set language


def wide_set(size):
    """256 names that share the size, the outputs with covers of their own."""
    width = max(4, size // (256 * 7))
    names = [f"a{k:03}" + "x" * width for k in range(255)]
    ports = ", ".join(f"input clk, input rst, input i, output [7:0] {names[0]}" if not k else f"output [7:0] {it}" for k, it in enumerate(names))
    drives = "".join(f"assign {it} = 8'd0;\n" for it in names)
    declared = "input i; " + "".join(f"output [7:0] {it};\n" for it in names)
    covers = lambda l: "".join(f"commit {it}@{l} == 8'd0;\n" for it in names) + "".join(f"cover {it} from {l} to {l + 1};\n" for it in names)
    properties = f"property reset {{ length 0; {covers(0)}next step; }}\noperation step {{ length 1; {covers(1)}next step; }}\n"
    return f"module t({ports});\n{drives}endmodule\n", "block t; clock clk; reset rst high 1;\n" + declared + properties


def long_path(size):
    return module(), SET_HEAD + "state " + ".".join(["p"] * (size // 2)) + ";\n" + SET_RESET + SET_STEP


def operations(size, length=1, constraints=0):
    """64 operations that may all follow each other, whose commitments share the size, and as many constraints of the greatest offset."""
    names = ", ".join(f"o{k}" for k in range(64))
    commit = f"commit {balanced(size // 64, f'@{length}')} || i@0 == i@0;\n"
    text = SET_HEAD + "".join(f"constraint c{k}: i@{63 - k % 8} != 8'd{k + 64};\n" for k in range(constraints))
    text += f"property reset {{ length 0; window {length - 1}; commit o@0 == 8'd0; cover o from 0 to {length}; next {names}; }}\n"
    for k in range(64):
        text += f"operation o{k} {{ length {length}; window {2 * length - 1}; {commit}cover o from {length} to {2 * length}; next {names}; }}\n"
    return module(), text


def hands(size):
    each = size // 64
    hand = ", ".join(balanced(each, "@1").replace("255", str(k)) for k in range(64))
    step = f"operation step {{ length 1; commit o@1 == i@0; hand {hand}; cover o from 1 to 2; next step; }}\n"
    return module(), SET_HEAD + SET_RESET + step


def long_operation(size):
    """An operation of 64 cycles that commits to each of them, again and again."""
    commits = repeated(size, lambda k: f"commit o@{1 + k % 64} == i@{k % 64};\n")
    step = f"operation step {{ length 64; {commits}cover o from 1 to 65; next step; }}\n"
    return module(), SET_HEAD + SET_RESET + step


def domain(size):
    declared = SET_HEAD.replace("output [7:0] o;", f"output [7:0] o when {balanced(size)};")
    return module(), declared + SET_RESET + SET_STEP


def until(size):
    """An operation of 1 to 64 cycles whose end is a long formula."""
    step = f"operation step {{ length 1 to 64 until {balanced(size)}; cover o from 1 to end + 1; next step; }}\n"
    return module(), SET_HEAD + SET_RESET + step


KINDS = {
    # tokens
    "white space": lambda size: (module(" " * size), SET),
    "comments to the line's end": lambda size: (module("//\n" * (size // 3)), SET),
    "one comment": lambda size: (module("/*" + "*" * size + "*/"), SET),
    "attributes": lambda size: (module("(*a*)" * (size // 5)), SET),
    "skipped lines": lambda size: ("`timescale 1ns/1ps\n" * (size // 19) + module(), SET),
    "one long name": long_name,
    "one long number": lambda size: (module(wire(0, "8'b" + "0" * size)), SET),
    # declarations
    "modules": lambda size: (module(before=repeated(size, lambda k: f"module m{k}; endmodule\n")), SET),
    "parameters of a header": header_parameters,
    "ports of a header": header_ports,
    "ports by name": named_ports,
    "wires": items(lambda k: f"wire w{k};\n"),
    "wires of one list": lambda size: (module("wire " + listed(size, lambda k: f"w{k}") + ";\n"), SET),
    "wires with values, a chain": items(lambda k: wire(k, f"w{k - 1} + 8'd1" if k else "i")),
    "registers": items(lambda k: f"reg r{k};\n"),
    "parameters, a chain": items(lambda k: f"localparam [7:0] P{k} = " + (f"P{k - 1} + 8'd1;\n" if k else "8'd0;\n")),
    "assignments, a chain from its end": driven_back,
    "assignments to bits": items(lambda k: (f"wire [63:0] w{k // 64};\n" if k % 64 == 0 else "") + f"assign w{k // 64}[{k % 64}] = i[0];\n"),
    "assignments to concatenations": items(lambda k: f"wire a{k}, b{k}; assign {{a{k}, b{k}}} = i;\n"),
    "nested left sides": items(lambda k: f"wire l{k}; assign {nested(f'l{k}', '{', '}')} = i;\n"),
    # blocks
    "clocked blocks": items(lambda k: f"reg r{k};\nalways @(posedge clk) r{k} <= i[0];\n"),
    "one clocked block": clocked_block,
    "combinational blocks": many_blocks,
    "one combinational block": one_block("cNUMBER = i;\n"),
    "one combinational block, an if each": one_block("cNUMBER = i;\nif (i[0]) cNUMBER = 8'd1;\n"),
    "one combinational block, an if and else each": one_block("if (i[0]) cNUMBER = i; else cNUMBER = 8'd1;\n"),
    "one combinational block, an item of a case each": case_of_block,
    "one combinational block, a chain from its end": block_from_its_end,
    "one combinational block, a chain from its end within an if": block_from_its_end_within_an_if,
    "one combinational block, a chain from its end within a case": block_from_its_end_within_a_case,
    "one combinational block, a chain from its end over items": block_from_its_end_over_items,
    "one combinational block, a chain from its end over items and a default": block_from_its_end_over_items_and_a_default,
    "one combinational block, a chain from its end under a long condition": block_from_its_end_under_a_condition,
    "one combinational block, a chain from its end behind statements": block_from_its_end_behind_statements,
    "one combinational block, a chain from its end behind parts": block_from_its_end_behind_parts,
    "one combinational block, vectors in turn": block_of_vectors_in_turn,
    "one combinational block, constant vectors in turn": block_of_constant_vectors,
    "one combinational block, vectors between signals": block_of_vectors_between,
    "one combinational block, each signal by all others": block_of_pairs,
    "one signal assigned again and again": one_signal,
    "a list of events": events,
    # statements
    "nested begin": statements(nested("TARGET = i;", "begin ", " end")),
    "nested if": statements("if (i[0]) " * HEIGHT + "TARGET = i;"),
    "nested if and else": statements("if (i[0]) " * (HEIGHT // 2) + "TARGET = i;" + " else TARGET = 8'd1;" * (HEIGHT // 2)),
    "else chains": statements(else_chain()),
    "nested case": statements(case_nest()),
    "nested casez": statements(case_nest("casez")),
    "items of a case": case_items,
    "labels of a case": case_labels("case"),
    "labels of a casez": case_labels("casez"),
    "a full case": full_case,
    # instances
    "instances within one another": instance_chain,
    "instances of one list": instance_list,
    "a tree of instances": instance_tree,
    "copies of a long module": copies,
    "connections by name": connected_ports,
    "overrides by name": overrides,
    # expressions
    "parentheses": expressions(nested("i", "(", ")")),
    "unary operators": expressions("~" * HEIGHT + "i"),
    "sums": expressions("+".join(["i"] * HEIGHT)),
    "sums from the right": expressions(nested("i", "(i+", ")", HEIGHT // 2)),
    "products of 64 bits": expressions("*".join(["x"] * HEIGHT), "wire [63:0] x = i;\n", "[63:0] "),
    "comparisons": expressions("<".join(["i"] * HEIGHT)),
    "shifts": expressions("<<".join(["i"] * HEIGHT)),
    "conditions": expressions("i?i:" * HEIGHT + "i"),
    "conditions in conditions": expressions(nested("i", "(", "?i:i)", HEIGHT // 2)),
    "concatenations": expressions("{" + ",".join(["i[0]"] * 64) + "}"),
    "nested concatenations": expressions(nested("i", "{", "}")),
    "nested replications": expressions(nested("i", "{1{", "}}", HEIGHT // 2)),
    "nested counts": expressions(counted()),
    "nested bounds": expressions("P[" * HEIGHT + "0" + ":0]" * HEIGHT, "localparam [7:0] P = 8'd0;\n"),
    "nested selects": expressions(nested("0", "i[", "]")),
    "nested part-selects": expressions(nested("0", "i[", "+:1]")),
    "nested signs": expressions(nested("i", "$signed(", ")")),
    # sets
    "set: comments": lambda size: (module(), "//\n" * (size // 3) + SET),
    "set: 256 long names": wide_set,
    "set: one long path": long_path,
    "set: 64 constraints": rules("constraint"),
    "set: 64 constraints of cycle 64": rules("constraint", offset="@64"),
    "set: 64 invariants": rules("invariant"),
    "set: an output's domain": domain,
    "set: commitments": clauses(lambda k: f"commit i@0 == 8'd{k % 256} || o@1 == i@0;\n"),
    "set: assumptions": clauses(lambda k: f"assume i@0 != 8'd{k % 256} || i@0 == 8'd{k % 256};\n"),
    "set: one long commitment": lambda size: (module(), property_text(f"commit {balanced(size)};")),
    "set: parentheses": clauses(lambda k: f"commit {nested('i', '(', ')')} == i;\n"),
    "set: unary operators": clauses(lambda k: f"commit {'~' * (HEIGHT - HEIGHT % 2)}i == i;\n"),
    "set: nested counts": clauses(lambda k: f"commit {counted(20)} == 1'd1;\n"),
    "set: deep counts": clauses(lambda k: f"commit {counted()} == 1'd1;\n"),
    "set: nested selects": clauses(lambda k: f"commit {nested('i', 'i[', ']')} == 1'd0;\n"),
    "set: products": clauses(lambda k: f"commit i@0 * o@1 * 8'd{k % 256} == o@1 * i@0 * 8'd{k % 256};\n"),
    "set: hand-over expressions": hands,
    "set: an end of 64": until,
    "set: 64 operations": operations,
    "set: 64 operations, 64 constraints": lambda size: operations(size, constraints=64),
    "set: 64 operations of 32 cycles, 64 constraints": lambda size: operations(size, 32, 64),
    "set: one operation of 64 cycles": long_operation,
}


# ---- runs


def bounded(seconds, megabytes):
    resource.setrlimit(resource.RLIMIT_CPU, (seconds, seconds + 1))
    resource.setrlimit(resource.RLIMIT_AS, (megabytes << 20, megabytes << 20))


def measured(words, options):
    """Seconds of processor time, megabytes, and what a run answered: its last line, or how it was cut off."""
    with tempfile.TemporaryFile() as out:
        limits = lambda: bounded(options.seconds, options.memory)
        process = subprocess.Popen(words, stdin=subprocess.DEVNULL, stdout=out, stderr=subprocess.DEVNULL, preexec_fn=limits)
        _, status, usage = os.wait4(process.pid, 0)
        process.returncode = status
        out.seek(0)
        lines = out.read().decode(errors="replace").splitlines()
    seconds, megabytes = usage.ru_utime + usage.ru_stime, usage.ru_maxrss / 1024
    if os.WIFSIGNALED(status):
        return seconds, megabytes, f"signal {os.WTERMSIG(status)}", False
    code = os.WEXITSTATUS(status)
    said = lines[-1][:40] if lines else f"status {code}"
    return seconds, megabytes, said, code != 70


def exponent(before, now):
    """How a measure grew over a doubling. None: it was too small to tell."""
    return None if before is None or before < 0.02 or now < 0.02 else math.log2(now / before)


def shown(value, digits):
    return "" if value is None else f"{value:.{digits}f}"


def row(name, options, folder):
    """The table's row of a kind."""
    files = f"{folder}/m.v", f"{folder}/m.set"
    last, told, stopped = None, ("", "", "", "", "", ""), ""
    for step in reversed(range(options.doublings + 1)):
        texts = made(name, options.most >> step)
        size = max(map(len, texts))
        for file, text in zip(files, texts):
            with open(file, "w", encoding="ascii") as it:
                it.write(text)
        seconds, megabytes, said, ended = measured([options.program, options.command, *files], options)
        if not ended:
            stopped = f"not at {size:,}: {said}, {seconds:.1f} s, {megabytes:.0f} MB"
            break
        times = exponent(last and last[0], seconds), exponent(last and last[1] / 1000, megabytes / 1000)
        told = f"{size:,}", shown(seconds, 2), f"{megabytes:.0f}", shown(times[0], 1), shown(times[1], 1), said
        last = seconds, megabytes
    return f"| {name} | " + " | ".join(told) + f" | {stopped} |"


def made(name, size):
    """The texts of a kind, the longer of which has nearly this size, and no more where a text can be so short."""
    asked, best = size, None
    for _ in range(4):
        texts = KINDS[name](asked)
        length = max(map(len, texts))
        if best is None or length <= size:
            best = texts
        if size * 0.97 <= length <= size:
            break
        asked = int(asked * size / length * 0.99)
    return best


def main():
    words = argparse.ArgumentParser()
    words.add_argument("--program", default="bin/signoff")
    words.add_argument("--command", choices=("check", "lines"), default="check")
    words.add_argument("--most", type=int, default=1 << 20)
    words.add_argument("--doublings", type=int, default=4)
    words.add_argument("--seconds", type=int, default=60)
    words.add_argument("--memory", type=int, default=8192)
    words.add_argument("--list", action="store_true")
    words.add_argument("kinds", nargs="*")
    options = words.parse_args()
    if options.list:
        print("\n".join(KINDS))
        return
    unknown = [it for it in options.kinds if it not in KINDS]
    if unknown:
        sys.exit(f"no such kind: {', '.join(unknown)}")
    print("| text | bytes | s | MB | exponent of s | of MB | answer | |\n|---|---|---|---|---|---|---|---|")
    begun = time.monotonic()
    with tempfile.TemporaryDirectory() as folder:
        for name in options.kinds or KINDS:
            print(row(name, options, folder), flush=True)
    print(f"\n{time.monotonic() - begun:.0f} s in all", file=sys.stderr)


if __name__ == "__main__":
    main()
