#!/usr/bin/env python3
"""Formulas in DIMACS form, each of which says that two circuits differ.

miters.py FOLDER [NAME..]        writes FOLDER/NAME.cnf for these names, or for all

Two circuits are equal, so that their formula can't be satisfied, except for those of chain_bug. A gate is turned if its inputs are in another order.

chain                   64 registers of 8 bits, each of which adds the result before it, and all gates of the second circuit turned but for the adders
chain_swap              the same, and the adders are turned too
chain_bug               the same, with a gate too many in the second circuit
pipe                    a step of a pipeline of 8 stages of 16 bits, and its adders turned; clauses say that the registers of both are equal
arbiter                 48 requests, served in turn, and some gates of the second circuit turned
adders                  a + b and b + a, of 32 bits
adders3                 (a + b) + c and a + (b + c), of 12 bits; adders3_8, adders3_12 and adders3_16: of so many bits
mul5_same, mul32_same   the low bits of a * b twice, of so many bits
mul5_swap, mul6_swap    the low bits of a * b and b * a
prod_6, prod_7, prod_8  the same, where an AND or XOR with a constant input is no gate; prod_6_full and prod_8_full: all bits of the product
gcd_1, gcd_2            one and two steps of Stein's method on words of 8 bits, written in two ways, with no such gates either
"""
import argparse
import functools
import os

TRUE = 1  # the variable that a clause of its own makes true
FALSE = -TRUE


class Net:
    """Gates as clauses. A bit is a literal, and a word is a list of bits, the lowest first."""

    def __init__(self):
        self.variables = 1
        self.clauses = [(TRUE,)]

    def bit(self):
        """A free bit."""
        self.variables += 1
        return self.variables

    def word(self, width):
        """A free word."""
        return [self.bit() for _ in range(width)]

    def add(self, *literals):
        """Adds a clause without what it says twice, or none if it is always true."""
        if not any(-it in literals for it in literals):
            self.clauses.append(tuple(dict.fromkeys(literals)))

    # Each of these makes a gate.

    def and_gate(self, a, b):
        out = self.bit()
        self.add(-out, a)
        self.add(-out, b)
        self.add(out, -a, -b)
        return out

    def xor_gate(self, a, b):
        out = self.bit()
        self.add(-out, a, b)
        self.add(-out, -a, -b)
        self.add(out, -a, b)
        self.add(out, a, -b)
        return out

    def mux_gate(self, chooser, a, b):
        out = self.bit()
        self.add(-chooser, -out, a)
        self.add(-chooser, out, -a)
        self.add(chooser, -out, b)
        self.add(chooser, out, -b)
        return out

    # What circuits are written in. A net may see that it needs no gate for it.

    def both(self, a, b):
        return self.and_gate(a, b)

    def either(self, a, b):
        return -self.both(-a, -b)

    def xor(self, a, b):
        return self.xor_gate(a, b)

    def mux(self, chooser, a, b):
        """The bit a if the chooser holds, else b."""
        return self.mux_gate(chooser, a, b)

    def mux_words(self, chooser, a, b):
        return [self.mux(chooser, x, y) for x, y in zip(a, b)]

    def sum_and_carry(self, a, b, carry=FALSE):
        """The sum of two words and a carry, of their width, and the carry out of it."""
        total = []
        for x, y in zip(a, b):
            half = self.xor(x, y)
            total.append(self.xor(half, carry))
            carry = self.either(self.both(x, y), self.both(half, carry))
        return total, carry

    def sum(self, a, b):
        return self.sum_and_carry(a, b)[0]

    def difference(self, a, b):
        """`a - b`, and whether `b <= a`."""
        return self.sum_and_carry(a, [-it for it in b], TRUE)

    def shifted_row(self, word, bit, shift):
        """A row of a product: a word where a bit holds, else 0, shifted up without getting wider."""
        return [FALSE] * shift + [self.both(it, bit) for it in word[: len(word) - shift]]

    def product(self, a, b):
        """The low bits of a product, as many as a factor has."""
        total = [FALSE] * len(a)
        for shift, bit in enumerate(b):
            total = self.sum(total, self.shifted_row(a, bit, shift))
        return total

    def differ(self, a, b):
        """Says that two words differ, by gates that are made in any net, whatever their inputs are."""
        differs = FALSE
        for x, y in zip(a, b):
            differs = -self.and_gate(-differs, -self.xor_gate(x, y))
        self.add(differs)

    def write(self, path):
        with open(path, "w", encoding="ascii") as it:
            it.write(f"p cnf {self.variables} {len(self.clauses)}\n")
            it.writelines(f"{' '.join(map(str, clause))} 0\n" for clause in self.clauses)


class FoldingNet(Net):
    """A net in which an AND or XOR with a constant input is no gate, nor is a choice between a bit and itself."""

    def both(self, a, b):
        for known, other in ((a, b), (b, a)):
            if known in (FALSE, TRUE):
                return other if known == TRUE else FALSE
        return self.and_gate(a, b)

    def xor(self, a, b):
        for known, other in ((a, b), (b, a)):
            if known in (FALSE, TRUE):
                return -other if known == TRUE else other
        return self.xor_gate(a, b)

    def mux(self, chooser, a, b):
        return a if a == b else self.mux_gate(chooser, a, b)

    def shifted_row(self, word, bit, shift):
        """The same row, but the bits that are shifted out are made too: gates that nothing reads."""
        return ([FALSE] * shift + [self.both(it, bit) for it in word])[: len(word)]


# The pairs of circuits. Each function gives the net that says that the two differ.


def turned(is_turned, a, b):
    """Two operands, the second one first if they are turned."""
    return (b, a) if is_turned else (a, b)


def chain(is_swapped, has_bug=False, count=64, width=8):
    """Registers in a chain, each of which may add the result before it and is masked. The bug is a gate too many in the middle of the second circuit."""
    net = Net()
    registers = [net.word(width) for _ in range(count)]
    masks = [net.word(width) for _ in range(count)]
    enable = net.bit()

    def circuit(is_second):
        outputs = []
        last = masks[0]
        for i, (register, mask) in enumerate(zip(registers, masks)):
            total = net.sum(*turned(is_second and is_swapped, register, last))
            chosen = net.mux_words(-enable, register, total) if is_second else net.mux_words(enable, total, register)
            last = [net.both(*turned(is_second, x, y)) for x, y in zip(chosen, mask)]
            if has_bug and is_second and i == count // 2:
                last[3] = net.both(last[3], last[2])
            outputs += last
        return outputs

    net.differ(circuit(False), circuit(True))
    return net


def pipe(count=8, width=16):
    """A step of a pipeline behind a stall. Each circuit has registers of its own, which clauses make equal to those of the other one."""
    net = Net()
    first_data = [net.word(width) for _ in range(count)]
    second_data = [net.word(width) for _ in range(count)]
    first_valid = net.word(count)
    second_valid = net.word(count)
    word = net.word(width)
    stall = net.bit()
    is_sum = net.bit()
    for first, second in zip([*first_data, first_valid], [*second_data, second_valid]):
        for x, y in zip(first, second):
            net.add(-x, y)
            net.add(x, -y)

    def step(data, valid, is_second):
        outputs = []
        last, is_last_valid = word, -stall
        for now, is_valid in zip(data, valid):
            total = net.sum(*turned(is_second, last, now))
            mixed = [net.xor(x, y) for x, y in zip(last, now)]
            result = net.mux_words(is_sum, total, mixed)
            outputs += [net.mux(stall, old, net.mux(is_last_valid, new, old)) for new, old in zip(result, now)]
            outputs.append(net.mux(stall, is_valid, is_last_valid))
            last, is_last_valid = now, is_valid
        return outputs

    net.differ(step(first_data, first_valid, False), step(second_data, second_valid, True))
    return net


def arbiter(count=48):
    """Requests served in turn: the first one after the last winner, or else the first of all. The second circuit has turned gates."""
    net = Net()
    requests = net.word(count)
    last_winner = net.word(count)

    def first_of(requests, is_second):
        """The first of some requests, and whether there is none."""
        none, winner = TRUE, []
        for request in requests:
            winner.append(net.both(*turned(is_second, request, none)))
            none = net.both(none, -request)
        return winner, none

    def grant(is_second):
        is_after, mask = FALSE, []
        for bit in last_winner:
            mask.append(is_after)
            is_after = net.either(*turned(is_second, is_after, bit))
        later = [net.both(request, it) for request, it in zip(requests, mask)]
        first_later, none_later = first_of(later, is_second)
        first, _ = first_of(requests, is_second)
        return net.mux_words(none_later, first, first_later)

    net.differ(grant(False), grant(True))
    return net


def adders(width):
    """A sum commutes."""
    net = Net()
    a, b = net.word(width), net.word(width)
    net.differ(net.sum(a, b), net.sum(b, a))
    return net


def adders3(width):
    """Sums associate."""
    net = Net()
    a, b, c = net.word(width), net.word(width), net.word(width)
    net.differ(net.sum(net.sum(a, b), c), net.sum(a, net.sum(b, c)))
    return net


def multipliers(width, is_swapped):
    """A product beside itself, or beside that of the turned factors."""
    net = Net()
    a, b = net.word(width), net.word(width)
    net.differ(net.product(a, b), net.product(*turned(is_swapped, a, b)))
    return net


def products(width, is_full=False):
    """A product commutes: its low bits, or all of them, for which the factors get zeros on top."""
    net = FoldingNet()
    top = [FALSE] * width if is_full else []
    a, b = net.word(width) + top, net.word(width) + top
    net.differ(net.product(a, b), net.product(b, a))
    return net


def gcd(count, width=8):
    """Steps of Stein's method: an even word is halved, and of two odd ones the greater becomes half of their difference."""
    net = FoldingNet()
    a, b = net.word(width), net.word(width)
    mux = net.mux_words

    def half(word):
        return [*word[1:], FALSE]

    def by_cases(a, b):
        """Subtracts both ways."""
        a_less_b, is_a_max = net.difference(a, b)
        b_less_a, _ = net.difference(b, a)
        next_a = mux(-a[0], half(a), mux(-b[0], a, mux(is_a_max, half(a_less_b), a)))
        next_b = mux(-a[0], b, mux(-b[0], half(b), mux(is_a_max, b, half(b_less_a))))
        return next_a, next_b

    def by_order(a, b):
        """Puts the greater word first, and subtracts once."""
        _, is_a_max = net.difference(a, b)
        greater = mux(is_a_max, a, b)
        smaller = mux(is_a_max, b, a)
        rest, _ = net.difference(greater, smaller)
        are_odd = net.both(a[0], b[0])
        next_a = mux(are_odd, mux(is_a_max, half(rest), a), mux(a[0], a, half(a)))
        next_b = mux(are_odd, mux(is_a_max, b, half(rest)), mux(net.both(a[0], -b[0]), half(b), b))
        return next_a, next_b

    first = second = a, b
    for _ in range(count):
        first = by_cases(*first)
        second = by_order(*second)
    net.differ(first[0] + first[1], second[0] + second[1])
    return net


FORMULAS = {
    "chain": functools.partial(chain, is_swapped=False),
    "chain_swap": functools.partial(chain, is_swapped=True),
    "chain_bug": functools.partial(chain, is_swapped=True, has_bug=True),
    "pipe": pipe,
    "arbiter": arbiter,
    "adders": functools.partial(adders, 32),
    "adders3": functools.partial(adders3, 12),
    "adders3_8": functools.partial(adders3, 8),
    "adders3_12": functools.partial(adders3, 12),
    "adders3_16": functools.partial(adders3, 16),
    "mul5_same": functools.partial(multipliers, 5, is_swapped=False),
    "mul5_swap": functools.partial(multipliers, 5, is_swapped=True),
    "mul6_swap": functools.partial(multipliers, 6, is_swapped=True),
    "mul32_same": functools.partial(multipliers, 32, is_swapped=False),
    "prod_6": functools.partial(products, 6),
    "prod_7": functools.partial(products, 7),
    "prod_8": functools.partial(products, 8),
    "prod_6_full": functools.partial(products, 6, is_full=True),
    "prod_8_full": functools.partial(products, 8, is_full=True),
    "gcd_1": functools.partial(gcd, 1),
    "gcd_2": functools.partial(gcd, 2),
}


def main():
    reader = argparse.ArgumentParser(description=__doc__, formatter_class=argparse.RawDescriptionHelpFormatter)
    reader.add_argument("folder", metavar="FOLDER")
    reader.add_argument("names", metavar="NAME", nargs="*", default=list(FORMULAS))
    args = reader.parse_args()
    for name in args.names:
        if name not in FORMULAS:
            reader.error(f"no formula {name}")
    os.makedirs(args.folder, exist_ok=True)
    for name in args.names:
        FORMULAS[name]().write(f"{args.folder}/{name}.cnf")


if __name__ == "__main__":
    main()
