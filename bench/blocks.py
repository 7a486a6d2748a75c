#!/usr/bin/env python3
"""Blocks that grow: families of modules with complete sets, and how long signoff and other tools take on them.

blocks.py write FAMILY N FOLDER                       puts m.v, m.set and yosys.v into FOLDER, and the script yosys.ys
blocks.py run PROGRAM [FAMILY..] [--limit S]          doubles the size from 4 on, and puts tables in Markdown
blocks.py compare PROGRAM SOLVER FAMILY:N.. [--limit S]    SOLVER (which reads DIMACS, as bench_sat does) beside minisat on the clauses of each line
                                                      for which minisat needs at least 6 ms, a start included; the least of two runs

It needs what `apt-get install time minisat cadical yosys` installs. The families, with what N is:

chain        cells behind one another, a cell a cycle; the set says what comes out N cycles later (window N)
pipeline     stages behind a stall; the set says what each stage has in the next cycle, and hands all of them over
arbiter      requesters, served in turn; one operation for each winner
alu          bits; one adder and one shifter, shared by eight operations
multiplier   bits of a factor; a bit a cycle, one operation of N + 1 cycles, and the product in its commitment
divider      bits; restoring, a bit a cycle; the commitment is a == q * b + r and r < b
gcd          bits; Stein's method, a step an operation
crc          bits of a word; a bit a cycle, and the parallel form in the commitment
modes        operations that may each follow each other
hierarchy    words in a tree of banks, instances within instances

Times are user seconds, memory is that of the largest process. A tool that needs more than the limit isn't run on larger sizes.

- signoff: `PROGRAM check M S` with the default budget; the verdict is `signed off`, or which lines are refuted or spent.
- minisat, cadical: on what `PROGRAM clauses M S LINE` puts, the sum over all lines of the report. Making the clauses isn't in it, nor what a start takes,
  which is measured on a formula of one clause. A block with too many lines for that is left out.
- yosys: temporal induction (`sat -tempinduct`) on the block beside a monitor, which asserts for each property that its commitments hold where its
  assumptions do, over delayed values of all names. These are the lines `reset` and `op`, all of them at once. The monitor says nothing of the lines about
  the set (`split`, `choose`, `hand`, `determine`): yosys doesn't check that the operations are complete.

Below each table stand the exponents of growth between the last two sizes, where the smaller one takes 0.01 s or more: time grows as N to the exponent.
"""
import argparse
import dataclasses
import math
import os
import re
import subprocess
import tempfile
import textwrap
import time

COLUMNS = 118
HARD_SPACE = "\N{NO-BREAK SPACE}"


@dataclasses.dataclass
class Property:
    """A property of a set. The first one of a set is `reset`, which nothing assumes."""
    name: str
    length: int
    assume: str
    commit: list
    next: list
    hand: list = dataclasses.field(default_factory=list)
    window: int = 0  # the length, where it is 0

    def last(self):
        """The last offset that it may read."""
        return max(self.window, self.length)


@dataclasses.dataclass
class Block:
    """A module with its set. Names go to their widths, outputs that are claimed under a condition also to that."""
    name: str
    about: str
    module: str
    inputs: dict
    outputs: dict
    properties: list
    states: dict = dataclasses.field(default_factory=dict)
    domains: dict = dataclasses.field(default_factory=dict)
    lead: int = 1  # the offset from which on an operation covers the outputs


def bits(count):
    """The bits of a number below count."""
    return (count - 1).bit_length()


def span(width):
    return f"[{width - 1}:0] " if width > 1 else ""


def in_cycles(name, cycles):
    """The values of a name in some cycles, the latest first, as one word."""
    return "{" + ", ".join(f"{name}@{cycle}" for cycle in reversed(cycles)) + "}"


# The text of a set


def whole(item):
    """An item of a list that isn't to be broken."""
    return item.replace(" ", HARD_SPACE)


def wrapped(text, first="", next=""):
    lines = textwrap.fill(text, COLUMNS, initial_indent=first, subsequent_indent=next, break_long_words=False, break_on_hyphens=False)
    return lines.replace(HARD_SPACE, " ")


def cover_text(block, item, is_reset):
    low = 0 if is_reset else block.lead
    high = block.lead + (0 if is_reset else item.length)
    return " ".join(whole(f"cover {name} from {low} to {high};") for name in block.outputs)


def property_text(block, item):
    is_reset = item is block.properties[0]
    head = "property reset" if is_reset else f"operation {item.name}"
    window = f" window {item.window};" if item.window else ""
    clauses = [f"assume {item.assume};"] if item.assume else []
    clauses += [f"commit {it};" for it in item.commit]
    clauses += ["hand " + ", ".join(whole(it) for it in item.hand) + ";"] if item.hand else []
    clauses += [cover_text(block, item, is_reset), "next " + ", ".join(item.next) + "; }"]
    return "\n".join([f"{head} {{ length {item.length};{window}"] + [wrapped(it, "  ", "    ") for it in clauses]) + "\n"


def set_text(block):
    when = {name: f" when {it}" for name, it in block.domains.items()}
    declared = [
        " ".join(whole(f"input {span(width)}{name};") for name, width in block.inputs.items()),
        " ".join(whole(f"output {span(width)}{name}{when.get(name, '')};") for name, width in block.outputs.items()),
        " ".join(whole(f"state {span(width)}{name};") for name, width in block.states.items()),
    ]
    head = [wrapped(block.about, "// ", "// "), f"block {block.name}; clock clk; reset rst high 1;"] + [wrapped(it) for it in declared if it]
    return "\n".join(head) + "\n\n" + "\n".join(property_text(block, it) for it in block.properties)


# The families


def chain(n):
    wires = "".join(f"  wire v{i}; wire [7:0] d{i};\n" for i in range(1, n))
    v = ["v", *(f"v{i}" for i in range(1, n)), "w"]
    d = ["d", *(f"d{i}" for i in range(1, n)), "q"]
    links = "".join(f"  link l{i}(.clk(clk), .rst(rst), .v({v[i]}), .d({d[i]}), .w({v[i + 1]}), .q({d[i + 1]}));\n" for i in range(n))
    module = f"""// A chain of {n} links, each of which adds one to the byte that passes.
module link(input clk, input rst, input v, input [7:0] d, output reg w, output reg [7:0] q);
  always @(posedge clk) begin
    if (rst) w <= 1'b0;
    else w <= v;
    q <= d + 8'd1;
  end
endmodule
module chain(input clk, input rst, input v, input [7:0] d, output w, output [7:0] q);
{wires}{links}endmodule
"""
    empty = [f"{in_cycles('w', range(n))} == {n}'d0"]
    passed = [f"w@{n} == v@0", f"!v@0 || q@{n} == d@0 + 8'd{n}"]
    properties = [Property("reset", 0, "", empty, ["pass"], window=n - 1), Property("pass", 1, "", passed, ["pass"], window=n)]
    about = f"A chain of {n} links: what comes in goes out {n} cycles later, {n} more. After reset nothing comes out until then."
    return Block("chain", about, module, {"v": 1, "d": 8}, {"w": 1, "q": 8}, properties, domains={"q": "w"}, lead=n)


def mixed(word, stage):
    """What a stage of the pipeline makes of a word: it turns it by five bits and adds a number of its own."""
    return f"{{{word}[10:0], {word}[15:11]}} + 16'd{40503 * (stage + 1) % 65536}"


def pipeline(n):
    valid = ["v", *(f"v{i}" for i in range(1, n)), "w"]
    data = ["d", *(f"d{i}" for i in range(1, n)), "q"]
    clear = "".join(f"      {it} <= 1'b0;\n" for it in valid[1:])
    move = "".join(f"      {valid[i + 1]} <= {valid[i]};\n      {data[i + 1]} <= {mixed(data[i], i)};\n" for i in range(n))
    module = f"""// A pipeline of {n} stages that mix a word. All stages stand while stall is high.
module pipeline(input clk, input rst, input stall, input v, input [15:0] d, output reg w, output reg [15:0] q);
  reg {', '.join(valid[1:-1])};
  reg [15:0] {', '.join(data[1:-1])};
  always @(posedge clk)
    if (rst) begin
{clear}    end else if (!stall) begin
{move}    end
endmodule
"""
    moved = [f"{valid[i + 1]}@1 == {valid[i]}@0 && (!{valid[i]}@0 || {data[i + 1]}@1 == {mixed(data[i] + '@0', i)})" for i in range(n)]
    kept = [f"{v}@1 == {v}@0 && (!{v}@0 || {x}@1 == {x}@0)" for v, x in zip(valid[1:], data[1:])]
    hand = [f"({v}@0 ? {{1'b1, {x}@0}} : 17'd0)" for v, x in zip(valid[1:], data[1:])]
    both = ["move", "stand"]
    properties = [
        Property("reset", 0, "", [" && ".join(f"!{it}@0" for it in valid[1:])], both),
        Property("move", 1, "!stall@0", moved, both, hand[:-1]),
        Property("stand", 1, "stall@0", kept, both, hand),
    ]
    states = {name: width for i in range(1, n) for name, width in ((valid[i], 1), (data[i], 16))}
    about = "A pipeline behind a stall: each stage takes over from the one before, or all of them stand. A word counts only where it is valid."
    inputs = {"stall": 1, "v": 1, "d": 16}
    return Block("pipeline", about, module, inputs, {"w": 1, "q": 16}, properties, states, {"q": "w"})


def arbiter(n):
    module = f"""// Round-robin arbiter of {n} requesters: those behind the last winner come first, the lowest of them before the others.
module arbiter(input clk, input rst, input [{n - 1}:0] req, output reg [{n - 1}:0] grant);
  reg [{n - 1}:0] behind;
  wire [{n - 1}:0] ahead = req & behind;
  wire [{n - 1}:0] first = ahead != {n}'d0 ? ahead : req;
  wire [{n - 1}:0] winner = first & (~first + {n}'d1);
  always @(posedge clk)
    if (rst) begin
      grant <= {n}'d0;
      behind <= {n}'d0;
    end else begin
      grant <= winner;
      if (req != {n}'d0) behind <= ~(winner | (winner - {n}'d1));
    end
endmodule
"""
    word = lambda value: f"{n}'h{value % (1 << n):0{(n + 3) // 4}x}"
    follow = ["none"] + [f"grant_{i}" for i in range(n)]
    properties = [
        Property("reset", 0, "", [f"grant@0 == {n}'d0 && behind@0 == {n}'d0"], follow),
        Property("none", 1, f"req@0 == {n}'d0", [f"grant@1 == {n}'d0 && behind@1 == behind@0"], follow, ["behind@0"]),
    ]
    for i in range(n):
        lower = word((1 << i) - 1)
        in_turn = f"behind@0[{i}] && (req@0 & behind@0 & {lower}) == {n}'d0"
        in_front = f"!behind@0[{i}] && (req@0 & (behind@0 | {lower})) == {n}'d0"
        commit = f"grant@1 == {word(1 << i)} && behind@1 == {word(-2 << i)}"
        properties.append(Property(f"grant_{i}", 1, f"req@0[{i}] && ({in_turn} || {in_front})", [commit], follow))
    about = "A round-robin arbiter, by who wins: whoever requests and has no requester before it. Those behind the last winner come before all others."
    return Block("arbiter", about, module, {"req": n}, {"grant": n}, properties, {"behind": n})


def shifter(n):
    """The wires of a shifter to the right by 1, 2, 4, .. bits, as b says, and the name of the last one."""
    wires, before = "", "s0"
    for i in range(bits(n)):
        shift = 1 << i
        wires += f"  wire [{n - 1}:0] s{i + 1} = b[{i}] ? {{{{{shift}{{fill}}}}, {before}[{n - 1}:{shift}]}} : {before};\n"
        before = f"s{i + 1}"
    return wires, before


def turned(name, n):
    return "{" + ", ".join(f"{name}[{i}]" for i in range(n)) + "}"


def alu_module(n):
    wires, shifted = shifter(n)
    return f"""// An ALU of {n} bits: one adder for sums, differences and comparisons, one shifter for both directions.
module alu(input clk, input rst, input [2:0] op, input [{n - 1}:0] a, input [{n - 1}:0] b, output reg [{n - 1}:0] r, output zero);
  localparam ADD = 3'd0, SUB = 3'd1, LESS = 3'd2, AND = 3'd3, OR = 3'd4, XOR = 3'd5, LEFT = 3'd6;
  wire minus = op == SUB || op == LESS;
  wire [{n - 1}:0] sum = a + (minus ? ~b : b) + {{{n - 1}'d0, minus}};
  wire less = a[{n - 1}] == b[{n - 1}] ? sum[{n - 1}] : a[{n - 1}];
  wire left = op == LEFT;
  wire fill = !left & a[{n - 1}];
  wire [{n - 1}:0] s0 = left ? {turned('a', n)} : a;
{wires}  wire [{n - 1}:0] back = {turned(shifted, n)};
  assign zero = r == {n}'d0;
  always @(posedge clk)
    if (rst) r <= {n}'d0;
    else case (op)
      ADD, SUB: r <= sum;
      LESS: r <= {{{n - 1}'d0, less}};
      AND: r <= a & b;
      OR: r <= a | b;
      XOR: r <= a ^ b;
      LEFT: r <= back;
      default: r <= {shifted};
    endcase
endmodule
"""


def alu(n):
    by = f"b@0[{bits(n) - 1}:0]"
    results = {
        "add": "r@1 == a@0 + b@0",
        "subtract": "r@1 == a@0 - b@0",
        "less": "r@1 == ($signed(a@0) < $signed(b@0))",
        "and_bits": "r@1 == (a@0 & b@0)",
        "or_bits": "r@1 == (a@0 | b@0)",
        "xor_bits": "r@1 == (a@0 ^ b@0)",
        "shift_left": f"r@1 == a@0 << {by}",
        "shift_right": f"$signed(r@1) == $signed(a@0) >>> {by}",
    }
    zero = f"zero@1 == (r@1 == {n}'d0)"
    properties = [Property("reset", 0, "", [f"r@0 == {n}'d0 && zero@0"], list(results))]
    properties += [Property(name, 1, f"op@0 == 3'd{i}", [it, zero], list(results)) for i, (name, it) in enumerate(results.items())]
    about = f"An ALU of {n} bits, one operation for each of its operations. The result stands in the cycle behind, and zero tells that it is 0."
    return Block("alu", about, alu_module(n), {"op": 3, "a": n, "b": n}, {"r": n, "zero": 1}, properties)


def serial(name, about, length, work, values):
    """The properties of a block that takes its operands with `start` while it is ready, and tells `done` so many cycles later.

    work has the operations with what each assumes and commits; values are the outputs that count with done.
    """
    follow = ["idle", *work]
    busy = range(1, length)
    timing = [
        f"{in_cycles('ready', busy)} == {length - 1}'d0 && ready@{length}",
        f"{in_cycles('done', busy)} == {length - 1}'d0 && done@{length}",
    ]
    properties = [
        Property("reset", 0, "", ["ready@0 && !done@0"], follow),
        Property("idle", 1, "ready@0 && !start@0", ["ready@1 && !done@1"], follow),
    ]
    properties += [Property(it, length, "ready@0 && start@0" + assume, timing + commit, follow) for it, (assume, commit) in work.items()]
    return {"name": name, "about": about, "properties": properties, "domains": {it: "done" for it in values}}


def multiplier(n):
    left = bits(n + 1)
    module = f"""// Multiplies by adding and shifting, a bit of b a cycle, the lowest first.
module multiplier(input clk, input rst, input start, input [{n - 1}:0] a, input [{n - 1}:0] b,
                  output ready, output reg done, output reg [{2 * n - 1}:0] p);  // p: the sum above, what is left of b below
  reg [{n - 1}:0] factor;
  reg [{left - 1}:0] left;  // bits that are still to be taken
  wire [{n}:0] sum = {{1'b0, p[{2 * n - 1}:{n}]}} + (p[0] ? {{1'b0, factor}} : {n + 1}'d0);
  assign ready = left == {left}'d0;
  always @(posedge clk)
    if (rst) begin
      left <= {left}'d0;
      done <= 1'b0;
    end else begin
      done <= left == {left}'d1;
      if (!ready) begin
        p <= {{sum, p[{n - 1}:1]}};
        left <= left - {left}'d1;
      end else if (start) begin
        factor <= a;
        p <= {{{n}'d0, b}};
        left <= {left}'d{n};
      end
    end
endmodule
"""
    about = f"A multiplier that takes a bit a cycle: {n + 1} cycles behind a start it shows the product, and is ready for the next one."
    parts = serial("multiplier", about, n + 1, {"multiply": ("", [f"p@{n + 1} == {{{n}'d0, a@0}} * b@0"])}, ["p"])
    return Block(module=module, inputs={"start": 1, "a": n, "b": n}, outputs={"ready": 1, "done": 1, "p": 2 * n}, **parts)


def divider(n):
    left = bits(n + 1)
    module = f"""// Restoring division, a bit of a cycle, the highest first.
module divider(input clk, input rst, input start, input [{n - 1}:0] a, input [{n - 1}:0] b,
               output ready, output reg done, output reg [{n - 1}:0] q, output reg [{n - 1}:0] r);  // q: what is left of a above
  reg [{n - 1}:0] divisor;
  reg [{left - 1}:0] left;  // bits that are still to be taken
  wire [{n}:0] rest = {{r, q[{n - 1}]}};
  wire fits = rest >= {{1'b0, divisor}};
  assign ready = left == {left}'d0;
  always @(posedge clk)
    if (rst) begin
      left <= {left}'d0;
      done <= 1'b0;
    end else begin
      done <= left == {left}'d1;
      if (!ready) begin
        q <= {{q[{n - 2}:0], fits}};
        r <= fits ? rest - {{1'b0, divisor}} : rest;
        left <= left - {left}'d1;
      end else if (start) begin
        divisor <= b;
        q <= a;
        r <= {n}'d0;
        left <= {left}'d{n};
      end
    end
endmodule
"""
    about = f"A divider that takes a bit a cycle: {n + 1} cycles behind a start it shows quotient and remainder. By 0 the quotient is all ones."
    end = n + 1
    work = {
        "divide": (f" && b@0 != {n}'d0", [f"a@0 == {{{n}'d0, q@{end}}} * b@0 + r@{end} && r@{end} < b@0"]),
        "divide_by_zero": (f" && b@0 == {n}'d0", [f"q@{end} == ~{n}'d0 && r@{end} == a@0"]),
    }
    parts = serial("divider", about, end, work, ["q", "r"])
    return Block(module=module, inputs={"start": 1, "a": n, "b": n}, outputs={"ready": 1, "done": 1, "q": n, "r": n}, **parts)


def gcd_module(n, k):
    return f"""// Greatest common divisor by Stein's method: takes out common twos, then halves what is even and subtracts the smaller.
module gcd(input clk, input rst, input start, input [{n - 1}:0] a, input [{n - 1}:0] b,
           output ready, output reg done, output reg [{n - 1}:0] g);
  reg busy;
  reg [{n - 1}:0] x, y;
  reg [{k - 1}:0] twos;
  assign ready = !busy;
  always @(posedge clk)
    if (rst) begin
      busy <= 1'b0;
      done <= 1'b0;
    end else begin
      done <= 1'b0;
      if (!busy) begin
        busy <= start;
        x <= a;
        y <= b;
        twos <= {k}'d0;
      end else if (x == {n}'d0 || y == {n}'d0) begin
        busy <= 1'b0;
        done <= 1'b1;
        g <= (x | y) << twos;
      end else if (!x[0] || !y[0]) begin
        if (!x[0]) x <= x >> 1;
        if (!y[0]) y <= y >> 1;
        if (!x[0] && !y[0]) twos <= twos + {k}'d1;
      end else if (x >= y) x <= x - y;
      else y <= y - x;
    end
endmodule
"""


def gcd(n):
    k = bits(n + 1)
    going = f"!ready@0 && x@0 != {n}'d0 && y@0 != {n}'d0 && "
    still, stay = "!ready@1 && !done@1", "twos@1 == twos@0"
    steps = {
        "halve_both": ("!x@0[0] && !y@0[0]", "x@1 == x@0 >> 1", "y@1 == y@0 >> 1", f"twos@1 == twos@0 + {k}'d1"),
        "halve_x": ("!x@0[0] && y@0[0]", "x@1 == x@0 >> 1", "y@1 == y@0", stay),
        "halve_y": ("x@0[0] && !y@0[0]", "x@1 == x@0", "y@1 == y@0 >> 1", stay),
        "take_from_x": ("x@0[0] && y@0[0] && x@0 >= y@0", "x@1 == x@0 - y@0", "y@1 == y@0", stay),
        "take_from_y": ("x@0[0] && y@0[0] && x@0 < y@0", "x@1 == x@0", "y@1 == y@0 - x@0", stay),
    }
    hand = ["x@0", "y@0", "twos@0"]
    rest, onward = ["idle", "load"], [*steps, "finish"]
    shown = "ready@1 && done@1 && g@1 == (x@0 | y@0) << twos@0"
    properties = [
        Property("reset", 0, "", ["ready@0 && !done@0"], rest),
        Property("idle", 1, "ready@0 && !start@0", ["ready@1 && !done@1"], rest),
        Property("load", 1, "ready@0 && start@0", [still, f"x@1 == a@0 && y@1 == b@0 && twos@1 == {k}'d0"], onward),
    ]
    properties += [Property(name, 1, going + when, [still, *commit], onward, hand) for name, (when, *commit) in steps.items()]
    properties += [Property("finish", 1, f"!ready@0 && (x@0 == {n}'d0 || y@0 == {n}'d0)", [shown], rest, hand)]
    about = "Stein's method, an operation for each of its steps: both numbers and the twos taken out are handed on from step to step."
    outputs, states = {"ready": 1, "done": 1, "g": n}, {"x": n, "y": n, "twos": k}
    return Block("gcd", about, gcd_module(n, k), {"start": 1, "a": n, "b": n}, outputs, properties, states, {"g": "done"})


def crc_masks(n):
    """For each bit of the checksum, which bits of the old one and the word it is the sum of: bit i of the word is 1 << i, the checksum stands above."""
    crc = [1 << (n + i) for i in range(16)]
    for i in reversed(range(n)):
        feed = crc[15] ^ (1 << i)
        crc = [feed, *crc[:15]]
        crc[5] ^= feed
        crc[12] ^= feed
    return crc


def crc(n):
    k = bits(n + 1)
    module = f"""// The checksum CRC-16-CCITT of words of {n} bits, a bit a cycle, the highest first.
module crc(input clk, input rst, input start, input [{n - 1}:0] d, output ready, output reg [15:0] sum);
  reg [{n - 1}:0] word;
  reg [{k - 1}:0] left;  // bits that are still to be taken
  wire feed = sum[15] ^ word[{n - 1}];
  assign ready = left == {k}'d0;
  always @(posedge clk)
    if (rst) begin
      left <= {k}'d0;
      sum <= 16'hffff;
    end else if (!ready) begin
      sum <= {{sum[14:0], 1'b0}} ^ (feed ? 16'h1021 : 16'h0000);
      word <= {{word[{n - 2}:0], 1'b0}};
      left <= left - {k}'d1;
    end else if (start) begin
      word <= d;
      left <= {k}'d{n};
    end
endmodule
"""
    end = n + 1
    follow = ["idle", "add_word"]
    digits = (n + 19) // 4
    sums = [f"sum@{end}[{i}] == ^({{sum@0, d@0}} & {n + 16}'h{mask:0{digits}x})" for i, mask in enumerate(crc_masks(n))]
    timing = f"{in_cycles('ready', range(1, end))} == {n}'d0 && ready@{end}"
    properties = [
        Property("reset", 0, "", ["ready@0 && sum@0 == 16'hffff"], follow),
        Property("idle", 1, "ready@0 && !start@0", ["ready@1 && sum@1 == sum@0"], follow, ["sum@0"]),
        Property("add_word", end, "ready@0 && start@0", [timing, *sums], follow, ["sum@0"]),
    ]
    about = f"CRC-16-CCITT: a word of {n} bits takes as many cycles. Each bit of the new checksum is a sum modulo 2 of bits of the old one and the word."
    return Block("crc", about, module, {"start": 1, "d": n}, {"ready": 1, "sum": 16}, properties, domains={"sum": "ready"})


def modes(n):
    k = bits(n)
    rates = [i * i + 1 for i in range(n)]
    cases = "".join(f"      {k}'d{i}: rate = 16'd{rate};\n" for i, rate in enumerate(rates))
    module = f"""// A ramp with {n} rates.
module modes(input clk, input rst, input [{k - 1}:0] mode, output reg [15:0] level);
  reg [15:0] rate;
  always @*
    case (mode)
{cases}      default: rate = 16'd0;
    endcase
  always @(posedge clk)
    if (rst) level <= 16'd0;
    else level <= level + rate;
endmodule
"""
    names = [f"mode_{i}" for i in range(n)]
    properties = [Property("reset", 0, "", ["level@0 == 16'd0"], names)]
    properties += [Property(name, 1, f"mode@0 == {k}'d{i}", [f"level@1 == level@0 + 16'd{rates[i]}"], names, ["level@0"]) for i, name in enumerate(names)]
    about = f"A ramp with {n} rates, an operation for each, which may each follow each other."
    return Block("modes", about, module, {"mode": k}, {"level": 16}, properties)


def bank_module(n, top):
    """A bank of n words: two banks of half as many, or two words."""
    k = bits(n)
    low_bits = f"[{k - 2}:0]" if k > 2 else "[0]"
    inner, low = ("word", "") if n == 2 else (f"bank{n // 2}", f", .wa(wa{low_bits}), .ra(ra{low_bits})")
    high_bit = f"[{k - 1}]" if k > 1 else ""
    halves = [("lo", f"!wa{high_bit}"), ("hi", f"wa{high_bit}")]
    inside = "".join(f"  {inner} {it}(.clk(clk), .rst(rst), .we(we & {when}), .d(d){low}, .q({it}_q));\n" for it, when in halves)
    return f"""module {top}(input clk, input rst, input we, input {span(k)}wa, input [7:0] d, input {span(k)}ra, output [7:0] q);
  wire [7:0] lo_q, hi_q;
{inside}  assign q = ra{high_bit} ? hi_q : lo_q;
endmodule
"""


def hierarchy(n):
    sizes = [1 << i for i in range(1, bits(n))]
    banks = "".join(bank_module(it, f"bank{it}") for it in sizes) + bank_module(n, "bank")
    module = f"""// {n} bytes in a tree of banks: each one has two of half its size.
module word(input clk, input rst, input we, input [7:0] d, output reg [7:0] q);
  always @(posedge clk)
    if (rst) q <= 8'd0;
    else if (we) q <= d;
endmodule
{banks}"""
    k = bits(n)
    words = [".".join("hi" if i >> bit & 1 else "lo" for bit in reversed(range(k))) + ".q" for i in range(n)]
    shown = [f"ra@1 != {k}'d{i} || q@1 == {word}@1" for i, word in enumerate(words)]
    changed = [f"{word}@1 == (wa@0 == {k}'d{i} ? d@0 : {word}@0)" for i, word in enumerate(words)]
    groups = lambda cycle: ["{" + ", ".join(f"{it}@{cycle}" for it in words[i:i + 8]) + "}" for i in range(0, n, 8)]
    kept = [f"{after} == {before}" for before, after in zip(groups(0), groups(1))]
    both = ["write", "keep"]
    properties = [
        Property("reset", 0, "", ["q@0 == 8'd0"] + [f"{it} == {min(n, 8) * 8}'d0" for it in groups(0)], both),
        Property("write", 1, "we@0", changed + shown, both, groups(0)),
        Property("keep", 1, "!we@0", kept + shown, both, groups(0)),
    ]
    about = f"{n} bytes in a tree of banks. The words are registers of instances within instances, named by their paths."
    return Block("bank", about, module, {"we": 1, "wa": k, "d": 8, "ra": k}, {"q": 8}, properties, {it: 8 for it in words})


# The families with their largest sizes, which are powers of two, and the limit of the sets' language that each one is at
FAMILIES = {
    "chain": (chain, 64, "a window"),
    "pipeline": (pipeline, 64, "hand-over expressions"),
    "arbiter": (arbiter, 32, "operations"),
    "alu": (alu, 64, "a width"),
    "multiplier": (multiplier, 32, "a width"),
    "divider": (divider, 32, "a width"),
    "gcd": (gcd, 64, "a width"),
    "crc": (crc, 32, "a length"),
    "modes": (modes, 64, "operations"),
    "hierarchy": (hierarchy, 128, "declared names"),
}


# The same block for yosys

TOKEN = re.compile(r"\d*'s?[bodhBODH][0-9a-fA-F_]+|\$signed|\d+|([A-Za-z_][\w$]*(?:\.[A-Za-z_][\w$]*)*)(?:@(\d+))?")


class Monitor:
    """A module that has the block in it and asserts the commitments, by delayed values of its names."""

    def __init__(self, block):
        self.block = block
        self.delays = {}  # the largest delay of each name

    def flat(self, name):
        return name.replace(".", "_")

    def over(self, formula, last):
        """A formula whose offset `last` is the present cycle, over delayed values."""
        def put(token):
            if token[1] is None:
                return token[0]
            delay = last - int(token[2] or 0)
            self.delays[token[1]] = max(delay, self.delays.get(token[1], 0))
            return f"{self.flat(token[1])}_{delay}" if delay else self.flat(token[1])
        return TOKEN.sub(put, formula)

    def assertion(self, item):
        """The line `reset` or `op` of a property. The age counts the cycles from the first one after reset on."""
        last = item.last()
        age = "==" if item is self.block.properties[0] else ">="
        when = f" && ({self.over(item.assume, last)})" if item.assume else ""
        commit = " && ".join(f"({self.over(it, last)})" for it in item.commit)
        return f"  always @* if (age {age} {last + 1}{when}) assert({commit});\n"

    def history(self, name, width):
        """A name, and its values in the cycles before."""
        own, delay = self.flat(name), self.delays.get(name, 0)
        if not delay:
            return ""
        values = [own] + [f"{own}_{i}" for i in range(1, delay + 1)]
        steps = " ".join(f"{after} <= {before};" for before, after in zip(values, values[1:]))
        return f"  reg {span(width)}{', '.join(values[1:])};\n  always @(posedge clk) begin {steps} end\n"

    def text(self):
        block = self.block
        asserted = "".join(self.assertion(it) for it in block.properties)
        most = max(it.last() for it in block.properties) + 1
        names = {**block.inputs, **block.outputs, **block.states}
        ports = ", ".join(f"input {span(width)}{name}" for name, width in block.inputs.items())
        wires = "".join(f"  wire {span(width)}{self.flat(it)};\n" for it, width in {**block.outputs, **block.states}.items())
        connected = ", ".join(f".{it}({it})" for it in ["clk", "rst", *block.inputs, *block.outputs])
        history = "".join(self.history(name, width) for name, width in names.items())
        return f"""module monitor(input clk, {ports});
  reg [7:0] age = 8'd0;
  wire rst = age == 8'd0;
  always @(posedge clk) if (age < 8'd{most}) age <= age + 8'd1;
{wires}  {block.name} block({connected});
{history}{asserted}endmodule
"""

    def script(self, module, monitor):
        """What yosys does: the states are joined to the block's registers once all is one module."""
        joined = "".join(f"connect -set {self.flat(it)} block.{it}\n" for it in self.block.states)
        most = max(it.last() for it in self.block.properties) + 1
        return f"""read_verilog {module}
read_verilog -formal {monitor}
hierarchy -top monitor
proc -norom
flatten
cd monitor
{joined}opt_clean
sat -verify -tempinduct -initsteps {most} -prove-asserts
"""


# Measuring

PATIENCE = 90  # the seconds in which all clauses of a block are made and solved, by the clock
SOLVERS = {"minisat": ["minisat", "-verb=0"], "cadical": ["cadical", "-q"]}


@dataclasses.dataclass
class Run:
    """What a run of a program took and said."""
    status: int
    seconds: float
    megabytes: float
    said: str


def run(words, limit):
    """Runs a program, and ends it where it needs more than so many seconds of processor time, which then are infinite."""
    with tempfile.NamedTemporaryFile("r") as memory, tempfile.TemporaryFile("w+") as said:
        timed = ["/usr/bin/time", "-q", "-o", memory.name, "-f", "%M", "prlimit", f"--cpu={math.ceil(limit)}", *words]
        started = subprocess.Popen(timed, stdout=said, stderr=subprocess.DEVNULL)
        _, status, used = os.wait4(started.pid, 0)
        started.returncode = os.waitstatus_to_exitcode(status)
        said.seek(0)
        seconds = used.ru_utime if started.returncode < 128 else math.inf
        return Run(started.returncode, seconds, int(memory.read()) / 1024, said.read())


def written(block, folder):
    """Writes the texts of a block, and gives the paths of its module and its set."""
    os.makedirs(folder, exist_ok=True)
    monitor = Monitor(block)
    texts = {"m.v": block.module, "m.set": set_text(block), "yosys.v": monitor.text()}
    texts["yosys.ys"] = monitor.script(f"{folder}/m.v", f"{folder}/yosys.v")
    for name, text in texts.items():
        with open(f"{folder}/{name}", "w", encoding="utf-8") as it:
            it.write(text)
    return f"{folder}/m.v", f"{folder}/m.set"


class Tool:
    """What a tool took on the sizes so far. It isn't run any more once it passed the limit."""

    def __init__(self, name, limit, start=0.0):
        self.name = name
        self.limit = limit
        self.start = start  # what one start of it takes, which doesn't count
        self.seconds = []
        self.is_over = False

    def cell(self, seconds, megabytes):
        """Notes a time, and puts it."""
        self.is_over = seconds >= self.limit
        if self.is_over:
            return f"> {self.limit:g}"
        self.seconds.append(seconds)
        return f"{max(seconds, 0):.{3 if seconds < 0.1 else 2}f}, {megabytes:.0f}"

    def exponent(self):
        if len(self.seconds) < 2 or self.seconds[-2] < 0.01:
            return ""
        return f"{math.log2(self.seconds[-1] / self.seconds[-2]):.1f}"


def verdict(said):
    """The last line of a report, or which lines aren't proved."""
    lines = said.splitlines()
    open_lines = [it for it in lines[:-1] if not it.startswith("proved ")]
    if not open_lines:
        return lines[-1] if lines else ""
    return ", ".join(open_lines[:3]) + (f" and {len(open_lines) - 3} more" if len(open_lines) > 3 else "")


def checked(program, files, tool):
    """The cells of `check`: its figures and its verdict."""
    done = run([program, "check", *files], tool.limit)
    figures = tool.cell(done.seconds, done.megabytes)
    return [figures, "" if tool.is_over else verdict(done.said)]


def start_of(solver):
    """The seconds of a solver on a formula that says nothing."""
    with tempfile.NamedTemporaryFile("w", suffix=".cnf") as formula:
        formula.write("p cnf 1 1\n1 0\n")
        formula.flush()
        return sum(run([*SOLVERS[solver], formula.name], 10).seconds for _ in range(50)) / 50


def solved(program, files, names, tools, folder):
    """The cells of solvers on the clauses of all lines."""
    taken = {it: (0.0, 0.0) for it in tools}
    since = time.monotonic()
    for name in names:
        going = [it for it in tools if not it.is_over and taken[it][0] < it.limit]
        if not going:
            break
        if time.monotonic() - since > PATIENCE:
            for it in tools:
                it.is_over = True
            return ["left out"] * len(tools)
        with open(f"{folder}/line.cnf", "w", encoding="utf-8") as clauses:
            subprocess.run([program, "clauses", *files, name], stdout=clauses, check=True)
        for tool in going:
            seconds, megabytes = taken[tool]
            done = run([*SOLVERS[tool.name], f"{folder}/line.cnf"], tool.limit - seconds)
            taken[tool] = (seconds + done.seconds - tool.start, max(megabytes, done.megabytes))
    return ["" if it.is_over else it.cell(*taken[it]) for it in tools]


def induced(folder, tool):
    """The cell of yosys."""
    if tool.is_over:
        return ""
    done = run(["yosys", "-q", "-s", f"{folder}/yosys.ys"], tool.limit)
    figures = tool.cell(done.seconds, done.megabytes)
    return figures if tool.is_over or done.status == 0 else f"{figures}: not proved"


def row(cells):
    print("| " + " | ".join(str(it) for it in cells) + " |", flush=True)


def measure(program, family, limit):
    """Puts the table of a family."""
    make, largest, bound = FAMILIES[family]
    own, yosys, solvers = Tool("signoff", limit), Tool("yosys", limit), [Tool(it, limit, start_of(it)) for it in SOLVERS]
    row([f"{family}: N", "lines", "signoff: s, MB", "verdict", "minisat: s, MB", "cadical: s, MB", "yosys: s, MB"])
    print("|---" * 7 + "|")
    size = 4
    with tempfile.TemporaryDirectory() as folder:
        while size <= largest and not own.is_over:
            files = written(make(size), folder)
            names = subprocess.run([program, "lines", *files], capture_output=True, text=True, check=True).stdout.splitlines()
            row([size, len(names), *checked(program, files, own), *solved(program, files, names, solvers, folder), induced(folder, yosys)])
            size *= 2
    row(["exponent", "", own.exponent(), "", *(it.exponent() for it in (*solvers, yosys))])
    print(f"\nThe largest N is {largest}, for {bound}.\n" if size > largest else "")


def mean(ratios):
    """The geometric mean."""
    return math.exp(sum(map(math.log, ratios)) / len(ratios))


def least(words, limit):
    """The least seconds of two runs, and their megabytes."""
    runs = [run(words, limit) for _ in range(2)]
    return min(max(it.seconds, 0.001) for it in runs), min(it.megabytes for it in runs)


def compared(program, solver, family, size, limit):
    """Puts the row of a family's lines, and gives for each line how many times minisat's seconds and memory the solver takes."""
    rows = []
    with tempfile.TemporaryDirectory() as folder:
        files = written(FAMILIES[family][0](size), folder)
        names = subprocess.run([program, "lines", *files], capture_output=True, text=True, check=True).stdout.splitlines()
        for name in names:
            with open(f"{folder}/line.cnf", "w", encoding="utf-8") as clauses:
                subprocess.run([program, "clauses", *files, name], stdout=clauses, check=True)
            theirs = least([*SOLVERS["minisat"], f"{folder}/line.cnf"], limit)
            if 0.006 <= theirs[0] < math.inf:
                rows.append((least(["sh", "-c", f"exec {solver} < {folder}/line.cnf"], limit), theirs))
    ratios = [(ours[0] / theirs[0], ours[1] / theirs[1]) for ours, theirs in rows]
    sums = [f"{sum(it[k][0] for it in rows):.2f}" for k in (0, 1)]
    row([family, size, len(names), len(rows), *sums, *(f"{mean([it[k] for it in ratios]):.2f}" if ratios else "" for k in (0, 1))])
    return ratios


def compare(program, solver, blocks, limit):
    """Puts a row for each block, and the means over all lines."""
    row(["family", "N", "lines", "compared", "signoff: s", "minisat: s", "times minisat's time", "memory"])
    print("|---" * 8 + "|")
    ratios = []
    for block in blocks:
        family, _, size = block.partition(":")
        ratios += compared(program, solver, family, int(size), limit)
    if ratios:
        row(["all", "", "", len(ratios), "", "", *(f"{mean([it[k] for it in ratios]):.2f}" for k in (0, 1))])


def main():
    reader = argparse.ArgumentParser(description=__doc__, formatter_class=argparse.RawDescriptionHelpFormatter)
    commands = reader.add_subparsers(dest="command", required=True)
    write = commands.add_parser("write")
    write.add_argument("family", choices=FAMILIES)
    write.add_argument("size", type=int)
    write.add_argument("folder")
    table = commands.add_parser("run")
    table.add_argument("program")
    table.add_argument("family", nargs="*", default=list(FAMILIES))
    table.add_argument("--limit", type=float, default=10)
    beside = commands.add_parser("compare")
    beside.add_argument("program")
    beside.add_argument("solver")
    beside.add_argument("block", nargs="+")
    beside.add_argument("--limit", type=float, default=30)
    args = reader.parse_args()
    if args.command == "compare":
        compare(args.program, args.solver, args.block, args.limit)
        return
    if args.command == "run":
        for family in args.family:
            measure(args.program, family, args.limit)
        return
    make, largest, _ = FAMILIES[args.family]
    if args.size not in [1 << i for i in range(2, bits(largest) + 1)]:
        reader.error(f"N of {args.family} is a power of two from 4 to {largest}")
    written(make(args.size), args.folder)


if __name__ == "__main__":
    main()
