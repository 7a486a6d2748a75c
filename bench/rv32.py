#!/usr/bin/env python3
"""Runs programs on the RISC-V cores of examples/ in iverilog, and compares with a plain interpreter.

bench/rv32.py [--random N] [--seed S]

Sorting, multiplication by addition and Fibonacci, and then N programs of random instructions (100), each with random waits on the buses. A core that ends
in another way than the interpreter, in its registers, its memory or its place, is told, and the status is 1. It needs iverilog and vvp.
"""
import argparse
import os
import random
import subprocess
import sys
import tempfile

TOP = os.path.dirname(os.path.dirname(os.path.abspath(__file__)))
WORDS = 1024
MASK = 0xFFFFFFFF
BENCH = """
module bench;
  reg clk = 0, rst = 1;
  reg [31:0] memory [0:%(words)d - 1];
  integer i, cycles = 0;
  always #5 clk = !clk;
  %(buses)s
  initial begin
    $readmemh("program.hex", memory);
    repeat (2) @(negedge clk);
    rst = 0;
    while (!trap && cycles < 200000) begin @(negedge clk); cycles = cycles + 1; end
    $display("%%0d %%h", trap, dut.%(pc)s);
    for (i = 0; i < 32; i = i + 1) $display("%%h", dut.x[i]);
    for (i = 0; i < %(words)d; i = i + 1) $display("%%h", memory[i]);
    $finish;
  end
endmodule
"""
STORE = """
  always @(posedge clk) if (!rst && %(v)s && %(w)s && %(r)s) for (i%(n)s = 0; i%(n)s < 4; i%(n)s = i%(n)s + 1)
    if (%(s)s[i%(n)s]) memory[%(a)s[11:2]][8 * i%(n)s +: 8] <= %(d)s[8 * i%(n)s +: 8];"""
ONE_BUS = """wire valid, write, trap; wire [31:0] addr, wdata; wire [3:0] strobe; reg turn = 0; integer i0;
  wire ready = valid && turn; wire [31:0] rdata = ready ? memory[addr[11:2]] : 32'hdeadbeef;
  always @(negedge clk) turn = $random(seed); integer seed = %(seed)d;
  rv32 dut(clk, rst, valid, write, addr, wdata, strobe, ready, rdata, trap);
""" + STORE % {"v": "valid", "w": "write", "r": "ready", "s": "strobe", "a": "addr", "d": "wdata", "n": "0"}
TWO_BUSES = """wire iv, dv, dw, trap; wire [31:0] ia, da, dd; wire [3:0] ds; reg it = 0, dt = 0; integer i0;
  wire ir = iv && it, dr = dv && dt; wire [31:0] id = ir ? memory[ia[11:2]] : 32'hdeadbeef, dq = dr ? memory[da[11:2]] : 32'hdeadbeef;
  always @(negedge clk) begin it = $random(seed); dt = $random(seed); end integer seed = %(seed)d;
  rv32p dut(clk, rst, iv, ia, ir, id, dv, dw, da, dd, ds, dr, dq, trap);
""" + STORE % {"v": "dv", "w": "dw", "r": "dr", "s": "ds", "a": "da", "d": "dd", "n": "0"}
CORES = {"rv32": (ONE_BUS, "pc"), "rv32p": (TWO_BUSES, "e_pc")}


def signed(value, bits=32):
    """The number that so many bits are in two's complement."""
    value &= (1 << bits) - 1
    return value - (1 << bits) if value >> (bits - 1) else value


# The instructions, by the manual's table of opcodes.
def r_type(funct7, funct3, rd, rs1, rs2):
    return funct7 << 25 | rs2 << 20 | rs1 << 15 | funct3 << 12 | rd << 7 | 0x33


def i_type(opcode, funct3, rd, rs1, immediate):
    return (immediate & 0xFFF) << 20 | rs1 << 15 | funct3 << 12 | rd << 7 | opcode


def s_type(funct3, rs1, rs2, immediate):
    return (immediate >> 5 & 0x7F) << 25 | rs2 << 20 | rs1 << 15 | funct3 << 12 | (immediate & 0x1F) << 7 | 0x23


def b_type(funct3, rs1, rs2, offset):
    return ((offset >> 12 & 1) << 31 | (offset >> 5 & 0x3F) << 25 | rs2 << 20 | rs1 << 15 | funct3 << 12 | (offset >> 1 & 0xF) << 8 | (offset >> 11 & 1) << 7
            | 0x63)


def j_type(rd, offset):
    return (offset >> 20 & 1) << 31 | (offset >> 1 & 0x3FF) << 21 | (offset >> 11 & 1) << 20 | (offset >> 12 & 0xFF) << 12 | rd << 7 | 0x6F


def addi(rd, rs1, immediate):
    return i_type(0x13, 0, rd, rs1, immediate)


def add(rd, rs1, rs2):
    return r_type(0, 0, rd, rs1, rs2)


def lw(rd, rs1, immediate):
    return i_type(0x03, 2, rd, rs1, immediate)


def sw(rs1, rs2, immediate):
    return s_type(2, rs1, rs2, immediate)


def blt(rs1, rs2, offset):
    return b_type(4, rs1, rs2, offset)


def bne(rs1, rs2, offset):
    return b_type(1, rs1, rs2, offset)


EBREAK = 0x00100073


def sorting():
    """Eight words at 512, sorted by exchanges."""
    code = [addi(1, 0, 8), addi(2, 0, 512), addi(3, 0, 1), lw(4, 2, 0), lw(5, 2, 4), blt(4, 5, 12), sw(2, 5, 0), sw(2, 4, 4), addi(2, 2, 4), addi(3, 3, 1),
            blt(3, 1, -28), addi(1, 1, -1), addi(6, 0, 1), bne(1, 6, -48), EBREAK]
    return code, {128 + at: value for at, value in enumerate([9, 3, 70, 1, 22, 5, 8, 4])}


def multiplying():
    """x3 = 123 * 45 by adding."""
    return [addi(1, 0, 123), addi(2, 0, 45), addi(3, 0, 0), add(3, 3, 1), addi(2, 2, -1), bne(2, 0, -8), sw(0, 3, 1024), EBREAK], {}


def fibonacci():
    """The first 20 numbers at 512."""
    return [addi(1, 0, 0), addi(2, 0, 1), addi(3, 0, 512), addi(4, 0, 20), sw(3, 1, 0), add(5, 1, 2), addi(1, 2, 0), addi(2, 5, 0), addi(3, 3, 4),
            addi(4, 4, -1), bne(4, 0, -24), EBREAK], {}


def random_instruction(draw):
    """An instruction of any kind, with few registers so that they depend on one another; accesses go to 512 and on, jumps forwards."""
    rd, rs1, rs2 = (draw.choice([0, 1, 2, 3, 4, 31]) for _ in range(3))
    kind = draw.randrange(100)
    if kind < 25:
        return r_type(*draw.choice([(0, 0), (32, 0), (0, 1), (0, 2), (0, 3), (0, 4), (0, 5), (32, 5), (0, 6), (0, 7)]), rd, rs1, rs2)
    if kind < 50:
        funct3 = draw.randrange(8)
        immediate = draw.randrange(-2048, 2048) if funct3 not in (1, 5) else draw.randrange(32) | (draw.choice([0, 1024]) if funct3 == 5 else 0)
        return i_type(0x13, funct3, rd, rs1, immediate)
    if kind < 60:
        return draw.randrange(1 << 20) << 12 | rd << 7 | draw.choice([0x37, 0x17])
    if kind < 72:
        funct3 = draw.choice([0, 1, 2, 4, 5])
        return i_type(0x03, funct3, rd, 0, 512 + draw.randrange(64) // (1 << (funct3 & 3)) * (1 << (funct3 & 3)))
    if kind < 84:
        funct3 = draw.randrange(3)
        return s_type(funct3, 0, rs2, 512 + draw.randrange(64) // (1 << funct3) * (1 << funct3))
    if kind < 94:
        return b_type(draw.choice([0, 1, 4, 5, 6, 7]), rs1, rs2, draw.choice([4, 8, 12]))
    if kind < 97:
        return j_type(rd, draw.choice([4, 8, 12]))
    return draw.choice([0x0000000F, i_type(0x67, 0, rd, 0, draw.choice([600, 601])), draw.randrange(1 << 32)]) if kind == 99 else j_type(rd, 4)


def random_program(draw):
    """Some 100 instructions."""
    code = [i_type(0x13, 0, it, 0, draw.randrange(-2048, 2048)) for it in (1, 2, 3, 4, 31)] + [random_instruction(draw) for _ in range(100)]
    return code + [EBREAK] * 4, {128 + at: draw.randrange(1 << 32) for at in range(16)}


def interpreted(memory):
    """The place, the registers and the memory with which a program stops, by the manual."""
    x, pc, memory = [0] * 32, 0, list(memory)
    for _ in range(20000):
        ir = memory[pc >> 2 & WORDS - 1]
        step = stepped(x, pc, ir, memory)
        if step is None:
            return pc, x, memory
        pc = step
    sys.exit("a program doesn't end")


def branch_taken(funct3, a, b):
    return [a == b, a != b, None, None, signed(a) < signed(b), signed(a) >= signed(b), a < b, a >= b][funct3]


def computed(funct3, funct7, a, b, is_register):
    """What an instruction of integer computation gives, if it is one."""
    if funct3 in (1, 5) and funct7 not in ((0,) if funct3 == 1 else (0, 32)) or is_register and funct7 not in ((0, 32) if funct3 in (0, 5) else (0,)):
        return None
    return [a - b if is_register and funct7 else a + b, a << (b & 31), signed(a) < signed(b), a < b, a ^ b,
            (signed(a) if funct7 == 32 else a) >> (b & 31), a | b, a & b][funct3] & MASK


def stepped(x, pc, ir, memory):
    """Where the program goes on after an instruction; None where it stops."""
    opcode, rd, funct3, rs1, rs2, funct7 = ir & 0x7F, ir >> 7 & 31, ir >> 12 & 7, ir >> 15 & 31, ir >> 20 & 31, ir >> 25
    a, b, immediate = x[rs1], x[rs2], signed(ir >> 20, 12)
    goal, value = pc + 4, None
    if opcode in (0x37, 0x17):
        value = (ir & 0xFFFFF000) + (pc if opcode == 0x17 else 0)
    elif opcode == 0x6F:
        goal = pc + signed((ir >> 31) << 20 | (ir >> 12 & 0xFF) << 12 | (ir >> 20 & 1) << 11 | (ir >> 21 & 0x3FF) << 1, 21)
        value = pc + 4
    elif opcode == 0x67 and funct3 == 0:
        goal, value = a + immediate & MASK - 1, pc + 4
    elif opcode == 0x63 and funct3 not in (2, 3):
        if branch_taken(funct3, a, b):
            goal = pc + signed((ir >> 31) << 12 | (ir >> 7 & 1) << 11 | (ir >> 25 & 0x3F) << 5 | (ir >> 8 & 0xF) << 1, 13)
    elif opcode == 0x03 and funct3 in (0, 1, 2, 4, 5) or opcode == 0x23 and funct3 in (0, 1, 2):
        place = a + (immediate if opcode == 0x03 else signed(funct7 << 5 | rd, 12)) & MASK
        size = 1 << (funct3 & 3)
        if place % size:
            return None
        at, moved, bits = place >> 2 & WORDS - 1, 8 * (place & 3), 8 * size
        mask = (1 << bits) - 1
        if opcode == 0x23:
            memory[at] = memory[at] & ~(mask << moved) & MASK | (b & mask) << moved
        else:
            value = memory[at] >> moved & mask
            value = value if funct3 & 4 else signed(value, bits) & MASK
    elif opcode in (0x13, 0x33):
        value = computed(funct3, funct7, a, b if opcode == 0x33 else immediate & MASK, opcode == 0x33)
        if value is None:
            return None
    elif not (opcode == 0x0F and funct3 == 0):
        return None
    goal &= MASK
    if goal & 3:
        return None
    if value is not None and rd:
        x[rd] = value & MASK
    return goal


def simulated(core, memory, seed):
    """The same of a core, in iverilog."""
    buses, pc = CORES[core]
    with tempfile.TemporaryDirectory(prefix="signoff-rv32-") as folder:
        with open(f"{folder}/bench.v", "w", encoding="utf-8") as it:
            it.write(BENCH % {"words": WORDS, "buses": buses % {"seed": seed}, "pc": pc})
        with open(f"{folder}/program.hex", "w", encoding="utf-8") as it:
            it.write("\n".join(f"{word:08x}" for word in memory))
        subprocess.run(["iverilog", "-g2005", "-o", "bench", "bench.v", f"{TOP}/examples/{core}/{core}.v"], cwd=folder, check=True)
        lines = subprocess.run(["vvp", "-n", "bench"], cwd=folder, check=True, capture_output=True, text=True).stdout.split("\n")
    trap, place = lines[0].split()
    words = [int(it, 16) for it in lines[1:1 + 32 + WORDS]]
    return (int(place, 16) if trap == "1" else -1), words[:32], words[32:]


def is_right(name, program, seed):
    """Whether both cores end as the interpreter does."""
    code, data = program
    memory = code + [0] * (WORDS - len(code))
    for at, value in data.items():
        memory[at] = value
    want = interpreted(memory)
    right = True
    for core in CORES:
        got = simulated(core, memory, seed)
        for what, one, other in zip(("place", "registers", "memory"), want, got):
            if one != other:
                right = False
                print(f"{core}, {name}: the {what} differs: {one if what == 'place' else [(at, hex(a), hex(b)) for at, (a, b) in enumerate(zip(one, other)) if a != b][:4]}"
                      f"{f', and not {other}' if what == 'place' else ''}")
    return right


def main():
    reader = argparse.ArgumentParser(description=__doc__, formatter_class=argparse.RawDescriptionHelpFormatter)
    reader.add_argument("--random", type=int, default=100)
    reader.add_argument("--seed", type=int, default=1)
    told = reader.parse_args()
    draw = random.Random(told.seed)
    programs = [("sorting", sorting()), ("multiplying", multiplying()), ("fibonacci", fibonacci())]
    programs += [(f"random program {it}", random_program(draw)) for it in range(told.random)]
    right = [is_right(name, program, draw.randrange(1 << 31)) for name, program in programs]
    print(f"{sum(right)} of {len(right)} programs end as they should on both cores")
    sys.exit(0 if all(right) else 1)


if __name__ == "__main__":
    main()
