#!/usr/bin/env python3
"""Prints a list of bookings, in the form that docs/BOOKINGS.md describes, for a store of COUNT words.

Usage: tools/bookings.py SEED COUNT LINES [--unreadable]

The same arguments print the same list. A list of some hundred lines has every refusal that a booking can have; it has deep and ragged
tables, and a store that is mostly nearly full, with a tidy now and then. Most bookings are granted: the script keeps trees of its own to
choose them by. With --unreadable some lines cannot be read.
"""

import random
import sys

NAMES = 64
LEVELS = 4
MOST = 262144
BASES = [1, 1, 1, 1, 0, -1, 7, -300, -32768, 32767]

# Bookings that are refused: at a place that holds nothing, a row, a table, or either; at such a place with a subscript more; at a
# row of the fourth level. What stands in braces is named in `values`.
NOTHING = [
    "free {place}", "read {place} 0 1", "write {place} 0 1 1", "row {place} 0 1 0", "rewrite {place} 0 1", "insert {place} 1 0",
    "delete {place} 1 0", "rebase {place} 40000", "exchange {place} 1 1",
]
BELOW_NOTHING = ["take {place}.1 0 40000 data 9", "free {place}.1", "span {place}.1", "write {place}.1 0 1 1", "rebase {place}.1 40000"]
ROW = [
    "read {place} {kind} {below}", "write {place} 9 {past} 1", "row {place} 9 {lowest} 0", "rewrite {place} 9 {highest}",
    "insert {place} {beyond} 0", "delete {place} {past} 0", "read {place} {other} {first}", "write {place} {huge} {first} 1",
    "row {place} 3 {first} 0", "rewrite {place} {other} {last}", "row {place} {kind} {first} 0", "row {place} {kind} {first} {more}",
    "row {place} {kind} {last} {huge}", "rewrite {place} {kind} {first}", "rewrite {place} {kind} {last} 1 2",
    "exchange {place} {below} {past}",
]
BELOW_ROW = [
    "take {place}.{first} 0 40000 data 9", "free {place}.{first}", "span {place}.{first}", "read {place}.{first} 0 1",
    "rewrite {place}.{first} 0 1", "insert {place}.{first} 1 0", "delete {place}.{first} 1 0", "rebase {place}.{first} 40000",
    "exchange {place}.{first} 1 1",
]
TABLE = [
    "read {place} 0 {first}", "write {place} 9 {past} 1", "row {place} 0 {first} 0", "rewrite {place} 0 {below}",
    "insert {place} {below} 0", "delete {place} {lowest} 0", "exchange {place} {below} {past}", "exchange {place} {first} {past}",
    "exchange {place} {first} {lowest}",
]
BELOW_TABLE = [
    "span {place}.{past}", "take {place}.{below} 0 40000 codes 9", "free {place}.{highest}", "read {place}.{past} 0 1",
    "rebase {place}.{past} 40000",
]
BLOCK = [
    "take {place} 0 -32769 data 0", "take {place} 0 32768 codes 0", "take {place} 1 1 data 3", "take {place} 0 1 data {huge}",
    "take {place} 0 1 codes 1", "take {place} 1 1 codes {huge}", "take {place} 0 1 data 2", "take {place} 0 1 data 0",
    "take {place} {room} 1 data 0", "take {place} {huge} 1 data 2", "insert {place} {first} 0", "insert {place} {past} {too_many}",
    "insert {place} {first} {huge}", "delete {place} {first} 0", "delete {place} {first} {n}", "delete {place} {last} 2",
    "rebase {place} -32769", "rebase {place} 32768", "rebase {place} 9223372036854775807",
]
FOURTH = ["take {place} 0 1 codes 0", "take {place} 1 1 codes 0", "take {place}.1 1 1 data 0", "read {place}.1 0 1"]
NO_TRACE = ["span 0", "free 65", "take 0.1.1.1.1 1 1 data 0", "read 18446744073709551615 0 1", "insert 64.1.2.3.4 1 0", "span 1.1.1.1.1"]

UNREADABLE = [
    "", " ", "book 1 2", "free", "free 1 2", "free  1", "take 1 2 1 rows 0", "take 1 2 1 data", "read one 0 1", "read 1. 0 1",
    "read 1.2147483648 0 1", "write 1 0 1 18446744073709551616", "write 1 0 1 -1", "rebase 1 9223372036854775808", "row 1 0 1 1.5",
    "rewrite 1 0 1 2 x", "tidy 1", "count 80",
]


class Block:
    """A row of words of a type, or a table of blocks, with None where there is nothing."""

    def __init__(self, base, codes, kind, n):
        self.base, self.codes, self.kind, self.items = base, codes, kind, [None if codes else 0] * n

    def weight(self):
        below = sum(item.weight() for item in self.items if item) if self.codes else 0
        return 1 + len(self.items) + below

    def is_leaf(self):
        return not self.codes or not any(self.items)


class Bookings:
    def __init__(self, seed, count):
        self.random = random.Random(seed)
        self.count = min(count, MOST)
        self.names = {name: None for name in range(1, NAMES + 1)}
        self.used = set()

    # The trees, and places in them. A place is a list, of the name and the subscripts.

    def free_words(self):
        return self.count - 1 - NAMES - sum(tree.weight() for tree in self.names.values() if tree)

    def places(self):
        """Every place, and the block or nothing that it holds."""
        found = []

        def down(place, block):
            found.append((place, block))
            if block and block.codes:
                for k, item in enumerate(block.items):
                    down(place + [block.base + k], item)

        for name, tree in self.names.items():
            down([name], tree)
        return found

    def spot(self, wanted):
        """A place whose block is as wanted, deep places as likely as others, and the block; or None."""
        found = [(place, block) for place, block in self.places() if wanted(block)]
        if not found:
            return None
        depth = self.random.choice(sorted({len(place) for place, _ in found}))
        return self.random.choice([spot for spot in found if len(spot[0]) == depth])

    def row(self):
        return self.spot(lambda block: block and not block.codes)

    def table(self):
        return self.spot(lambda block: block and block.codes)

    def block(self):
        return self.spot(lambda block: block)

    def nothing(self):
        return self.spot(lambda block: not block)

    def put(self, place, tree):
        if len(place) == 1:
            self.names[place[0]] = tree
            return
        block = self.names[place[0]]
        for subscript in place[1:-1]:
            block = block.items[subscript - block.base]
        block.items[place[-1] - block.base] = tree

    # What is drawn by lot.

    def subscript(self, block):
        return block.base + self.random.randrange(len(block.items))

    def word(self):
        like_a_codeword = self.random.randrange(65, self.count) | self.random.randrange(1, 9) << 18 | 1 << 54
        like_an_address = self.random.randrange(self.count)
        return self.random.choice([self.random.getrandbits(64), self.random.randrange(1000), like_an_address, like_a_codeword, 0, 2**64 - 1])

    def length(self, room):
        """A length for which there is room, mostly a small one."""
        most = self.random.choice([3, 3, 10, 10, 40, self.count // 20, self.count // 8])
        return self.random.randrange(1, max(1, min(room, most)) + 1)

    # Bookings that are granted: each gives its line, or None where the trees allow none.

    def taken(self, place, n, codes):
        codes = codes and len(place) < LEVELS
        block = Block(self.random.choice(BASES), codes, 0 if codes else self.random.randrange(3), min(n, 9) if codes else n)
        self.put(place, block)
        return f"take {trace(place)} {len(block.items)} {block.base} {'codes' if codes else 'data'} {block.kind}"

    def take(self):
        spot, room = self.nothing(), self.free_words() - 1
        return self.taken(spot[0], self.length(room), self.random.random() < 0.55) if spot and room >= 1 else None

    def take_again(self):
        spot = self.spot(lambda block: block and (block.is_leaf() or self.random.random() < 0.1))
        if not spot:
            return None
        room = self.free_words() + spot[1].weight() - 1
        return self.taken(spot[0], room if self.random.random() < 0.1 else self.length(room), self.random.random() < 0.3)

    def take_all(self):
        """A row that leaves no free word."""
        spot, room = self.nothing(), self.free_words() - 1
        return self.taken(spot[0], room, False) if spot and room >= 1 else None

    def free(self):
        spot = self.spot(lambda block: block and (block.is_leaf() or self.random.random() < 0.1))
        if not spot:
            return None
        self.put(spot[0], None)
        return f"free {trace(spot[0])}"

    def read(self):
        spot = self.row()
        return spot and f"read {trace(spot[0])} {spot[1].kind} {self.subscript(spot[1])}"

    def write(self):
        spot = self.row()
        return spot and f"write {trace(spot[0])} {spot[1].kind} {self.subscript(spot[1])} {self.word()}"

    def row_read(self):
        spot = self.row()
        if not spot:
            return None
        place, block = spot
        at = self.random.randrange(len(block.items))
        return f"row {trace(place)} {block.kind} {block.base + at} {self.random.randrange(1, len(block.items) - at + 1)}"

    def row_write(self):
        spot = self.row()
        if not spot:
            return None
        place, block = spot
        at = self.random.randrange(len(block.items))
        n = self.random.randrange(1, min(12, len(block.items) - at) + 1)
        return " ".join(["rewrite", trace(place), str(block.kind), str(block.base + at)] + [str(self.word()) for _ in range(n)])

    def span(self):
        return f"span {trace(self.random.choice(self.places())[0])}"

    def insert(self):
        spot, room = self.block(), self.free_words()
        if not spot or room < 1:
            return None
        place, block = spot
        n = room if self.random.random() < 0.05 and room < 1000 else self.length(min(room, 6) if block.codes else room)
        at = self.random.randrange(len(block.items) + 1)
        block.items[at:at] = [None if block.codes else 0] * n
        return f"insert {trace(place)} {block.base + at} {n}"

    def delete(self):
        spot = self.spot(lambda block: block and len(block.items) > 1)
        if not spot:
            return None
        place, block = spot
        at = self.random.randrange(len(block.items))
        n = self.random.randrange(1, min(len(block.items) - at, len(block.items) - 1, 3 if block.codes else self.count) + 1)
        del block.items[at : at + n]
        return f"delete {trace(place)} {block.base + at} {n}"

    def rebase(self):
        spot = self.block()
        if not spot:
            return None
        spot[1].base = self.random.choice(BASES)
        return f"rebase {trace(spot[0])} {spot[1].base}"

    def exchange(self):
        spot = self.table()
        if not spot:
            return None
        place, block = spot
        i, j = (self.random.randrange(len(block.items)) for _ in range(2))
        block.items[i], block.items[j] = block.items[j], block.items[i]
        return f"exchange {trace(place)} {block.base + i} {block.base + j}"

    def tidy(self):
        return "tidy"

    def granted(self):
        coming = [self.take] * 3 + [self.take_again, self.insert]
        going = [self.free, self.delete]
        looking = [self.read, self.write, self.row_read, self.row_write, self.row_write, self.span, self.rebase, self.exchange]
        lot = self.random.random()
        if lot < 0.04:
            choices = [self.tidy, self.tidy, self.tidy, self.take_all]
        elif lot < 0.5:
            # Few words are free most of the time.
            full = self.free_words() < self.count // 16
            choices = going * 3 + coming if full else coming * 2 + going
        else:
            choices = looking
        return self.random.choice(choices)()

    # Bookings that are refused. Each form has its turn before any comes again.

    def values(self, place, block):
        """What the forms of refused bookings speak of."""
        n = len(block.items) if block else 1
        base, kind = (block.base, block.kind) if block else (1, 0)
        too_many = self.free_words() + 1
        return {
            "place": trace(place), "kind": kind, "other": (kind + self.random.choice([1, 2])) % 3, "first": base, "last": base + n - 1,
            "below": base - 1, "past": base + n, "beyond": base + n + 1, "lowest": -(2**31), "highest": 2**31 - 1, "n": n, "more": n + 1,
            "huge": 2**64 - 1, "too_many": too_many, "room": too_many - 1 + (block.weight() if block else 0),
        }

    def refused(self):
        found = []
        fourth = self.row()
        for spot, forms, below in [
            (self.nothing(), NOTHING, BELOW_NOTHING),
            (self.row(), ROW + BLOCK, BELOW_ROW),
            (self.table(), TABLE + BLOCK, BELOW_TABLE),
            (fourth if fourth and len(fourth[0]) == LEVELS else None, FOURTH, []),
            (([1], None), NO_TRACE, []),
        ]:
            if spot:
                values = self.values(*spot)
                forms = forms + (below if len(spot[0]) < LEVELS else [])
                # A form has a turn at each depth.
                found += [((form, len(spot[0])), form.format(**values)) for form in forms]
        fresh = [turn for turn in found if turn[0] not in self.used]
        if not fresh:
            self.used.clear()
        turn, line = self.random.choice(fresh or found)
        self.used.add(turn)
        return line

    def line(self, unreadable):
        lot = self.random.random()
        if unreadable and lot < 0.03:
            return self.random.choice(UNREADABLE)
        if lot < 0.2:
            return self.refused()
        while True:
            line = self.granted()
            if line:
                return line


def trace(place):
    return ".".join(str(part) for part in place)


def main():
    arguments = [argument for argument in sys.argv[1:] if argument != "--unreadable"]
    if len(arguments) != 3:
        sys.exit(__doc__)
    seed, count, lines = (int(argument) for argument in arguments)
    print(f"count {count}")
    if count < 1 + NAMES + 2:
        return
    bookings = Bookings(seed, count)
    for _ in range(lines - 1):
        print(bookings.line("--unreadable" in sys.argv))


if __name__ == "__main__":
    main()
