#!/usr/bin/env python3
"""Writes the two netlists of a case to standard output.

    make.py adder N K       two values, 2N inputs: all bits of a, then all bits of b; the lowest K sum bits
    make.py select N K      the same, against a carry-select adder
    make.py multiplier N    two values, 2N inputs: all bits of a, then all bits of b
    make.py bus N           five values, 2N inputs: all enables, then all data
    make.py converter N     five values, N data inputs, then the bits of an address
    make.py none N          N inputs; one line and one OUT: what a start costs

The highest bit of a word is its first input. README.md tells what each case holds.
"""
import sys


class Netlist:
    """A netlist in the making. Each method adds lines and answers the number of the last one."""

    def __init__(self, inputs, values):
        self.inputs = inputs
        self.values = values
        self.lines = []
        self.bits = {}

    def add(self, word, first, second=None):
        self.lines.append((word, first, second))
        return len(self.lines) - 1

    def input(self, number):
        if number not in self.bits:
            self.bits[number] = self.add("INPUT", number)
        return self.bits[number]

    def const(self, letter):
        return self.add("CONST", "01XZS".index(letter))

    def inv(self, x):
        return self.add("NOT", x)

    def both(self, x, y):
        return self.add("AND", x, y)

    def either(self, x, y):
        return self.add("OR", x, y)

    def wire(self, x, y):
        return self.add("WIRE", x, y)

    def out(self, x):
        return self.add("OUT", x)

    def differ(self, x, y):
        """Exclusive or, of gates."""
        return self.either(self.both(x, self.inv(y)), self.both(self.inv(x), y))

    def choose(self, e, d, f):
        """IF e THEN d ELSE f, in two values, of gates."""
        return self.either(self.both(e, d), self.both(self.inv(e), f))

    def when(self, e, d, f):
        """IF e THEN d ELSE f, in five values, as FORMATS.md writes it."""
        return self.add("IFOR", self.add("IFAND", e, d), self.add("IFAND", self.inv(e), f))

    def tree(self, make, items):
        """All items under one operator, by halves."""
        if len(items) == 1:
            return items[0]
        half = len(items) // 2
        return make(self.tree(make, items[:half]), self.tree(make, items[half:]))

    def write(self, out):
        def operand(x):
            return "-" if x is None else str(x)

        out.write(f"{len(self.lines):5} {'HEAD':<6}{self.inputs:6}{self.values:6}\n")
        for number, (word, first, second) in enumerate(self.lines):
            out.write(f"{number:5} {word:<6}{operand(first):>6}{operand(second):>6}\n")


def full_adder(net, a, b, c):
    """The sum bit by two exclusive ors, and the carry by them, with the gates that both need made once."""
    t = net.differ(a, b)
    m = net.both(t, c)
    return net.both(net.either(t, c), net.inv(m)), net.either(net.both(a, b), m)


def majority_adder(net, a, b, c):
    """The carry by majority, and the sum bit by the carry."""
    m = net.either(net.both(a, b), net.both(net.either(a, b), c))
    some = net.either(net.either(a, b), c)
    every = net.both(net.both(a, b), c)
    return net.either(net.both(some, net.inv(m)), every), m


def half_adder(net, a, b):
    return net.differ(a, b), net.both(a, b)


def word(net, first, n):
    """The n bits of a word whose highest bit is the input `first`, lowest bit first."""
    return [net.input(first + n - 1 - i) for i in range(n)]


def ripple_bit(net, a, b, c, kept):
    """The sum and the carry of one bit; the lowest bit has no carry into it."""
    g, t = net.both(a, b), net.differ(a, b)
    if c is None:
        return t, g
    m = net.both(t, c)
    return net.both(net.either(t, c), net.inv(m)) if kept else None, net.either(g, m)


def majority_bit(net, a, b, c, kept):
    """The same by other gates, with the carry by majority."""
    g, o = net.both(a, b), net.either(a, b)
    t = net.both(o, net.inv(g))
    if c is None:
        return t, g
    s = net.both(net.either(t, c), net.inv(net.both(t, c))) if kept else None
    return s, net.either(g, net.both(o, c))


def by_bits(n, kept, bit, top):
    """An adder bit by bit, with the lowest `kept` sums, the carry, and what `top` makes of the highest bits and the carry."""
    net = Netlist(2 * n, 2)
    a, b = word(net, 0, n), word(net, n, n)
    sums, c = [], None
    for i in range(n):
        s, c = bit(net, a[i], b[i], c, i < kept)
        sums.append(s)
    for s in [s for s in sums if s is not None] + [c, top(net, a[-1], b[-1], c)]:
        net.out(s)
    return net


def ripple(n, kept):
    return by_bits(n, kept, ripple_bit, lambda net, a, b, c: c)


def by_select(n, kept):
    """An adder in blocks of four bits, each made for both carries, of which the carry into the block chooses."""
    net = Netlist(2 * n, 2)
    a, b = word(net, 0, n), word(net, n, n)
    zero, unit = net.const("0"), net.const("1")
    sums, carry = [], None
    for low in range(0, n, 4):
        bits = range(low, min(low + 4, n))
        rows = []
        for c in [zero] if carry is None else [zero, unit]:
            row = []
            for i in bits:
                s, c = majority_adder(net, a[i], b[i], c)
                row.append(s)
            rows.append(row + [c])
        if carry is None:
            sums, carry = rows[0][:-1], rows[0][-1]
            continue
        for i, x, y in zip(bits, rows[0], rows[1]):
            if i < kept:
                sums.append(net.choose(carry, y, x))
        carry = net.either(rows[0][-1], net.both(rows[1][-1], carry))
    for s in sums + [carry, net.both(a[n - 1], b[n - 1])]:
        net.out(s)
    return net


def adder(n, kept):
    """A ripple adder against one with majority carries: `kept` sum bits and the carry out are clean pairs. The last
    pair has a planted fault: the carry out, against a guess from the two highest bits."""
    return ripple(n, kept), by_bits(n, kept, majority_bit, lambda net, a, b, c: net.both(a, b))


def select(n, kept):
    """The same, against a carry-select adder."""
    return ripple(n, kept), by_select(n, kept)


def multiplier(n):
    """An array that adds row after row with rippling carries; and one that saves the carries of each row for the next
    one, and ripples once at the end. 2n pairs."""
    one = Netlist(2 * n, 2)
    a, b = word(one, 0, n), word(one, n, n)
    total = [one.both(a[i], b[0]) for i in range(n)]
    done, top = [], None
    for j in range(1, n):
        row = [one.both(a[i], b[j]) for i in range(n)]
        done.append(total[0])
        rest = total[1:] + ([top] if top is not None else [])
        sums, c = [], None
        for i in range(n):
            if i < len(rest):
                s, c = half_adder(one, row[i], rest[i]) if c is None else full_adder(one, row[i], rest[i], c)
            else:
                s, c = half_adder(one, row[i], c)
            sums.append(s)
        total, top = sums, c
    for s in done + total + [top]:
        one.out(s)

    two = Netlist(2 * n, 2)
    a, b = word(two, 0, n), word(two, n, n)
    sums = [two.both(a[i], b[0]) for i in range(n)]
    saved = [None] * n
    done = []
    for j in range(1, n):
        done.append(sums[0])
        above = sums[1:] + [None]
        next_sums, next_saved = [], []
        for i in range(n):
            p = two.both(a[i], b[j])
            parts = [x for x in (above[i], saved[i]) if x is not None]
            if len(parts) == 2:
                s, c = majority_adder(two, p, parts[0], parts[1])
            elif len(parts) == 1:
                s, c = half_adder(two, p, parts[0])
            else:
                s, c = p, None
            next_sums.append(s)
            next_saved.append(c)
        sums, saved = next_sums, next_saved
    done.append(sums[0])
    above, c = sums[1:] + [None], None
    for i in range(n):
        parts = [x for x in (above[i], saved[i], c) if x is not None]
        if len(parts) == 3:
            s, c = majority_adder(two, *parts)
        elif len(parts) == 2:
            s, c = half_adder(two, *parts)
        else:
            s, c = parts[0], None
        done.append(s)
    for s in done:
        two.out(s)
    return one, two


def bus(n):
    """A bus of n drivers, IF E THEN D ELSE Z under WIRE, and whether exactly one driver is on. Against it the AND-OR
    gates of the same enables and data, and the same question by other gates. The first pair is not clean."""
    one = Netlist(2 * n, 5)
    e = [one.input(i) for i in range(n)]
    d = [one.input(n + i) for i in range(n)]
    z = one.const("Z")
    one.out(one.tree(one.wire, [one.when(e[i], d[i], z) for i in range(n)]))
    none, single = one.inv(e[0]), e[0]
    for x in e[1:]:
        single = one.either(one.both(single, one.inv(x)), one.both(none, x))
        none = one.both(none, one.inv(x))
    one.out(single)

    two = Netlist(2 * n, 5)
    e = [two.input(i) for i in range(n)]
    d = [two.input(n + i) for i in range(n)]
    two.out(two.tree(two.either, [two.both(e[i], d[i]) for i in range(n)]))
    some, more = e[0], two.const("0")
    for x in e[1:]:
        more = two.either(more, two.both(some, x))
        some = two.either(some, x)
    two.out(two.both(some, two.inv(more)))
    return one, two


def converter(n):
    """A table of n codes, chosen by an address: each code drives a common wire where the address is its own, and an
    address without a code leaves the wire floating. Against it a tree of IFs over the address, with Z where there is no
    code. The second pair asks whether the address has a code. The third, which is not clean, is the last code's driver
    against an AND gate."""
    width = (n - 1).bit_length()

    one = Netlist(n + width, 5)
    d = [one.input(i) for i in range(n)]
    up = [one.input(n + i) for i in range(width)]
    down = [one.inv(x) for x in up]
    z = one.const("Z")
    own = []
    for k in range(n):
        picks = [up[i] if k >> (width - 1 - i) & 1 else down[i] for i in range(width)]
        own.append(one.tree(one.both, picks))
    drivers = [one.when(own[k], d[k], z) for k in range(n)]
    one.out(one.tree(one.wire, drivers))
    one.out(one.tree(one.either, own))
    one.out(drivers[n - 1])

    two = Netlist(n + width, 5)
    d = [two.input(i) for i in range(n)]
    up = [two.input(n + i) for i in range(width)]
    z, zero, unit = two.const("Z"), two.const("0"), two.const("1")

    def choose(code, missing, low, bit):
        if low >= n:
            return missing
        if bit == width:
            return code(low)
        half = 1 << (width - 1 - bit)
        y = choose(code, missing, low + half, bit + 1)
        x = choose(code, missing, low, bit + 1)
        return two.when(up[bit], y, x)

    two.out(choose(lambda k: d[k], z, 0, 0))
    two.out(choose(lambda k: unit, zero, 0, 0))
    last = choose(lambda k: unit if k == n - 1 else zero, zero, 0, 0)
    two.out(two.both(last, d[n - 1]))
    return one, two


def none(n):
    both = []
    for _ in range(2):
        net = Netlist(n, 2)
        net.out(net.input(0))
        both.append(net)
    return both


CASES = {"adder": adder, "select": select, "multiplier": multiplier, "bus": bus, "converter": converter, "none": none}

if __name__ == "__main__":
    try:
        nets = CASES[sys.argv[1]](*map(int, sys.argv[2:]))
    except (IndexError, KeyError, TypeError, ValueError):
        sys.exit(__doc__)
    for net in nets:
        net.write(sys.stdout)
