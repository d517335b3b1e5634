#!/usr/bin/env python3
"""generate.py [--long] COUNT SEED FOLDER: writes COUNT round files into FOLDER, in order and damaged.

The same COUNT and SEED give the same files. File i has scenario i mod (number of scenarios), so that every scenario
comes once in that many files. With --long all are in order, and have from 1,000 to 20,000 beats, with wounds that last,
grow or heal. The bytes are those of docs/FORMATS.md; the damages go by the numbers of
docs/REFUSALS.md, but nothing here says what the reply has to be.
"""
import os
import random
import sys

MOST_COPIES = 16384
MOST_BEATS = 1048575
WORK = 400_000  # about as many copies times beats has a round at most, but for a few


# ------------------------------------------------------------------ the round file

class Record:
    def __init__(self, number, plane, row, column, byte, zeros=0):
        self.number, self.plane, self.row, self.column = number, plane, row, column
        self.byte, self.zeros = byte, zeros

    def bytes(self):
        value = self.number
        for field, bits in ((self.plane, 12), (self.row, 6), (self.column, 6), (self.byte, 8), (self.zeros, 12)):
            value = (value << bits) | field
        return value.to_bytes(8, "big")


class Round:
    """A round as fields. `tail` are bytes of the script after the records, `after` bytes after the file, and `cut` how
    many bytes of the file are left (None for all). `host_said` and `script_said` are added to the lengths in the header."""

    def __init__(self, kind, side, planes, beats, host, tape):
        self.kind, self.side, self.planes, self.beats = kind, side, planes, beats
        self.host, self.tape = bytes(host), bytearray(tape)
        self.records, self.tail, self.after, self.cut = [], b"", b"", None
        self.host_said = self.script_said = 0

    def bytes(self):
        script = b"".join(record.bytes() for record in self.records) + self.tail
        value = self.kind
        host_length = max(0, min(65535, len(self.host) + self.host_said))
        script_length = max(0, min(65535, len(script) + self.script_said))
        for field, bits in ((self.side - 1, 6), (self.planes - 1, 12), (self.beats, 20), (host_length, 16),
                            (script_length, 16)):
            value = (value << bits) | field
        file = value.to_bytes(9, "big") + self.host + bytes(self.tape) + script + self.after
        return file if self.cut is None else file[:self.cut]


# ------------------------------------------------------------------ hosts and tapes

BEAVER = bytes.fromhex("31218021401140318030003100")


def machine(states, symbols, entry):
    """A machine file; entry(state, symbol) gives next state, symbol and move."""
    out = bytearray([states << 4 | (symbols - 1)])
    for state in range(1, states + 1):
        for symbol in range(symbols):
            following, writes, move = entry(state, symbol)
            out += bytes([following << 4 | writes, move << 6])
    return bytes(out)


def random_machine(rng, states=None, symbols=None):
    states = states or rng.choice([1, 2, 3, rng.randint(1, 15), 15])
    symbols = symbols or rng.choice([2, 3, rng.randint(2, 16), 16])
    return machine(states, symbols, lambda q, s: (rng.randint(1, states), rng.randrange(symbols), rng.randrange(3)))


def walkers(rng):
    """State 1 walks right, 2 left, 3 stands. So heads meet, pass and arrive at others."""
    symbols = rng.randint(2, 4)
    return machine(3, symbols, lambda q, s: (q, rng.choice([s, rng.randrange(symbols)]), {1: 2, 2: 1, 3: 0}[q]))


def random_host(rng, kind):
    if kind == 0:
        return bytes([rng.choice([30, 90, 110, 184, 204, 150, 232, 0, 255, 170, 240, rng.randrange(256),
                                  rng.randrange(256), rng.randrange(256), rng.randrange(256)])])
    return rng.choice([lambda: BEAVER, lambda: walkers(rng), lambda: random_machine(rng), lambda: random_machine(rng)])()


def shape_of(host):
    return host[0] >> 4, (host[0] & 15) + 1


def live(rng, host):
    states, symbols = shape_of(host)
    return rng.randint(1, states) << 4 | rng.randrange(symbols)


def foreign(rng, host):
    """A cell with a head that is not live; any cell, if there is none such."""
    states, symbols = shape_of(host)
    cells = [byte for byte in range(256) if byte >> 4 and (byte >> 4 > states or byte & 15 >= symbols)]
    return rng.choice(cells or range(256))


def random_cell(rng, kind, host):
    if kind == 0:
        return rng.randrange(2)
    states, symbols = shape_of(host)
    way = rng.randrange(6)
    if way < 2:
        return rng.randrange(symbols)
    if way == 2:
        return live(rng, host)
    if way == 3:
        return foreign(rng, host)
    return rng.randrange(256) if way == 4 else rng.randrange(16)


def random_tape(rng, kind, planes, host, style=None):
    if kind == 0:
        style = style or rng.choice(["random", "random", "one", "zeros", "ones"])
        if style == "random":
            return [rng.randrange(2) for _ in range(planes)]
        tape = [1 if style == "ones" else 0] * planes
        if style == "one":
            tape[rng.randrange(planes)] = 1
        return tape
    states, symbols = shape_of(host)
    style = style or rng.choice(["one", "one", "two", "two", "foreign", "random", "blank", "heads", "strange"])
    tape = [rng.choice([0, rng.randrange(symbols)]) for _ in range(planes)]
    if style == "random":
        return [rng.randrange(256) for _ in range(planes)]
    if style == "heads":
        return [live(rng, host) for _ in range(planes)]
    if style == "blank":
        return tape
    if style == "strange":  # symbols that are not below S, with no head
        tape = [rng.choice([cell, rng.randrange(16)]) for cell in tape]
    tape[rng.randrange(planes)] = live(rng, host)
    if style in ("two", "foreign"):
        tape[rng.randrange(planes)] = live(rng, host) if style == "two" else foreign(rng, host)
    if style == "foreign":
        tape[rng.randrange(planes)] = foreign(rng, host)
    return tape


# ------------------------------------------------------------------ rounds in order

def start(rng, kind, side, planes, beats=None, host=None, style=None):
    """A round with an empty script."""
    host = host if host is not None else random_host(rng, kind)
    most = max(1, WORK // (planes * side * side))
    if beats is None:
        beats = rng.choice([0, 1, 2, 3, side - 1, side, side + 1, 2 * side, rng.randint(0, 40)])
    return Round(kind, side, planes, min(beats, most) if beats <= 4096 else beats, host,
                 random_tape(rng, kind, planes, host, style))


def shape(rng, size):
    if size == "small":
        return rng.randint(2, 5), rng.randint(1, 7)
    if size == "middle":
        side = rng.randint(3, 16)
        return side, rng.randint(1, min(48, MOST_COPIES // side ** 2))
    side = rng.choice([17, 31, 32, 33, 63, 64, rng.randint(17, 64)])
    return side, rng.randint(1, min(16, MOST_COPIES // side ** 2))


def places_of(rng, side, pattern):
    """Places of the torus in a pattern, as (row, column)."""
    a, b = rng.choice([(0, 0), (side - 1, side - 1), (rng.randrange(side), rng.randrange(side))])
    if pattern == "triangle":
        k = rng.choice([1, 2, 3, side - 1, rng.randint(1, side - 1)])
        k = min(k, side - 1, 40)
        return [((a + u) % side, (b + v) % side) for u in range(k) for v in range(k - u)]
    if pattern == "hypotenuse":  # the outer line of a triangle alone
        k = rng.randint(1, side)
        return [((a + u) % side, (b + k - 1 - u) % side) for u in range(k)]
    if pattern == "row":
        return [(a, c) for c in range(side)]
    if pattern == "column":
        return [(r, b) for r in range(side)]
    if pattern == "antidiagonal":
        return [(r, (a - r) % side) for r in range(side)]
    if pattern == "diagonal":
        return [(r, (a + r) % side) for r in range(side)]
    if pattern == "cross":
        return [(a, c) for c in range(side)] + [(r, b) for r in range(side) if r != a]
    if pattern == "edge":
        ends = [0, side - 1]
        return [(rng.choice(ends), rng.randrange(side)) if rng.randrange(2) else (rng.randrange(side), rng.choice(ends))
                for _ in range(rng.randint(1, 8))] + [(r, c) for r in ends for c in ends if rng.randrange(2)]
    if pattern == "square":
        k = rng.randint(1, min(side, 20))
        return [((a + u) % side, (b + v) % side) for u in range(k) for v in range(k)]
    if pattern == "all":
        return [(r, c) for r in range(side) for c in range(side)]
    return [(rng.randrange(side), rng.randrange(side)) for _ in range(rng.randint(1, 12))]


PATTERNS = ["triangle", "hypotenuse", "row", "column", "antidiagonal", "diagonal", "edge", "square", "random"]


def strike(rng, round_, number, pattern, planes=None, byte=None):
    """Adds records of one number in a pattern."""
    places = places_of(rng, round_.side, pattern)
    if rng.randrange(3) == 0:
        rng.shuffle(places)
    planes = planes if planes is not None else rng.choice(["one", "one", "each", "any"])
    plane = rng.randrange(round_.planes)
    way = rng.choice(["one", "any", "own"])
    one = random_cell(rng, round_.kind, round_.host)
    for row, column in places:
        if planes == "any":
            plane = rng.randrange(round_.planes)
        for i in range(round_.planes) if planes == "each" else [plane]:
            cell = {"one": one, "any": random_cell(rng, round_.kind, round_.host), "own": round_.tape[i]}[way]
            if round_.kind == 0 and way == "one":
                cell = 1 - round_.tape[i]
            round_.records.append(Record(number, i, row, column, cell if byte is None else byte))
    fit(round_)


def fit(round_):
    """Drops the records that do not fit the longest file."""
    most = (65535 - 9 - len(round_.host) - round_.planes) // 8
    del round_.records[most:]


def rising(rng, round_, count, patterns=PATTERNS):
    """Adds patterns with numbers that rise from 0 to at most the number of beats."""
    numbers = sorted(rng.choice([0, round_.beats, rng.randint(0, round_.beats)]) for _ in range(count))
    for number in numbers:
        strike(rng, round_, number, rng.choice(patterns))


def plain(rng, kind, size, beats=None):
    side, planes = shape(rng, size)
    round_ = start(rng, kind, side, planes, beats)
    rising(rng, round_, rng.choice([0, 1, 2, 3, 5]))
    return round_


def with_pattern(pattern):
    def scenario(rng):
        side, planes = shape(rng, rng.choice(["small", "middle", "middle", "large"]))
        round_ = start(rng, rng.randrange(2), side, planes)
        strike(rng, round_, rng.choice([0, 0, round_.beats]), pattern)
        return round_
    return scenario


def half(rng):
    """About half of the copies of a plane are struck, with one cell or several."""
    kind = rng.randrange(2)
    side, planes = rng.choice([2, 3, 4, 5, 8, 16]), rng.randint(1, 5)
    round_ = start(rng, kind, side, planes, rng.choice([0, 0, 0, 1, 2]))
    plane = rng.choice([0, planes - 1, rng.randrange(planes)])
    places = places_of(rng, side, "all")
    rng.shuffle(places)
    others = [byte for byte in range(2 if kind == 0 else 256) if byte != round_.tape[plane]]
    bytes_ = [rng.choice(others) for _ in range(rng.choice([1, 1, 2, 3]))]
    number = rng.choice([0, round_.beats, round_.beats])
    for row, column in places[:max(0, side * side // 2 + rng.choice([-1, 0, 0, 1, 1]))]:
        round_.records.append(Record(number, plane, row, column, rng.choice(bytes_)))
    return round_


def thirds(rng):
    """Every copy of some planes is struck with random cells: mostly no majority."""
    kind = rng.randrange(2)
    side, planes = rng.randint(2, 9), rng.randint(1, 6)
    round_ = start(rng, kind, side, planes, rng.choice([0, 1, 3, 5]))
    for plane in range(planes):
        if rng.randrange(3):
            bytes_ = [rng.randrange(2 if kind == 0 else 256) for _ in range(3)]
            for row, column in places_of(rng, side, "all"):
                round_.records.append(Record(0, plane, row, column, rng.choice(bytes_)))
    return round_


def same_place(rng):
    """Records of equal number on one place: the last decides."""
    side, planes = shape(rng, "small")
    round_ = start(rng, rng.randrange(2), side, planes, rng.choice([0, 1, 2]))
    number = rng.randint(0, round_.beats)
    row, column, plane = rng.randrange(side), rng.randrange(side), rng.randrange(planes)
    for _ in range(rng.randint(2, 6)):
        round_.records.append(Record(number, plane, row, column, random_cell(rng, round_.kind, round_.host)))
    if rng.randrange(2):
        round_.records.append(Record(number, plane, row, column, round_.tape[plane]))
    return round_


def wide(rng):
    """Side 64 with 4 planes: 16,384 copies."""
    round_ = start(rng, rng.randrange(2), 64, 4, rng.choice([0, 1, 5, 20]))
    rising(rng, round_, rng.randint(0, 4), PATTERNS + ["all"])
    return round_


def tall(rng):
    """Side 2 with 4,096 planes: 16,384 copies."""
    round_ = start(rng, rng.randrange(2), 2, 4096, rng.choice([0, 1, 5, 20]))
    rising(rng, round_, rng.randint(0, 4), ["random", "edge", "row", "antidiagonal", "triangle"])
    if rng.randrange(3) == 0:  # the last plane loses its majority
        cell = 1 - round_.tape[4095] if round_.kind == 0 else round_.tape[4095] ^ 1
        for column in (0, 1):
            round_.records.append(Record(round_.beats, 4095, 1, column, cell))
        fit(round_)
    return round_


def full(rng):
    """16,384 copies exactly, in some shape."""
    side = rng.choice([2, 4, 8, 16, 32, 64])
    round_ = start(rng, rng.randrange(2), side, MOST_COPIES // side ** 2, rng.choice([0, 1, 3, 10]))
    rising(rng, round_, rng.randint(0, 3))
    return round_


def nearly_full(rng):
    """As many planes of the side as a round may have."""
    side = rng.randint(2, 64)
    round_ = start(rng, rng.randrange(2), side, MOST_COPIES // side ** 2, rng.choice([0, 1, 3]))
    rising(rng, round_, rng.randint(0, 2))
    return round_


def one_plane_more(rng):
    side = rng.choice([4, 8, 16, 32, 64, rng.randint(3, 64)])
    round_ = start(rng, rng.randrange(2), side, MOST_COPIES // side ** 2 + 1, 1)
    rising(rng, round_, rng.randint(0, 2))
    return round_


def many_beats(rng):
    side, planes = rng.randint(2, 4), rng.randint(1, 4)
    beats = rng.choice([255, 256, 4095, 4096, 9999, rng.randint(100, WORK // (side * side * planes))])
    round_ = start(rng, rng.randrange(2), side, planes, beats)
    round_.beats = beats
    rising(rng, round_, rng.randint(0, 4))
    return round_


def most_beats(rng):
    """1,048,575 beats, now and then; else a large number of them. The last record has the greatest number."""
    beats = MOST_BEATS if rng.randrange(4) == 0 else rng.choice([65535, 65536, 99999])
    round_ = start(rng, rng.randrange(2), 2, 1, beats)
    strike(rng, round_, 0, "random")
    strike(rng, round_, beats, "random")
    return round_


def empty_script(rng):
    side, planes = shape(rng, rng.choice(["small", "middle", "large"]))
    return start(rng, rng.randrange(2), side, planes)


def no_beats(rng):
    return plain(rng, rng.randrange(2), rng.choice(["small", "middle", "large"]), 0)


def longest_script(rng):
    """8,190 records: the file has 65,531 to 65,535 bytes."""
    kind = rng.randrange(2)
    planes = rng.randint(1, 5) if kind == 0 else 1
    host = None if kind == 0 else random_machine(rng, 1, 2)
    round_ = start(rng, kind, rng.choice([2, 7, 16, 40, 57]), planes, rng.choice([0, 3, 10]), host)
    numbers = sorted(rng.randint(0, round_.beats) for _ in range(8190))
    for number in numbers:
        round_.records.append(Record(number, rng.randrange(planes), rng.randrange(round_.side),
                                     rng.randrange(round_.side), random_cell(rng, kind, round_.host)))
    return round_


def too_long(rng):
    """A file of more than 65,535 bytes: as long as its header says, or longer."""
    round_ = longest_script(rng)
    way = rng.randrange(4)
    if way == 0:  # 65,536 bytes by the header
        wanted = 65536
    elif way == 1:
        wanted = 65536 + rng.randint(1, 3000)
    else:  # longer than the header says
        round_.after = bytes(65536 - len(round_.bytes()) + rng.choice([0, 1, 5000]))
        wanted = None
    if wanted is not None:
        more = wanted - len(round_.bytes())
        round_.planes += more
        round_.tape += bytes(more)
    round_.kind = rng.choice([round_.kind, round_.kind, round_.kind, 2, 3])
    return round_


# ------------------------------------------------------------------ machines in order

def beaver(rng):
    round_ = start(rng, 1, rng.randint(2, 9), 7, rng.randint(0, 8), BEAVER)
    round_.tape = bytearray([0, 0, 0, 0x10, 0, 0, 0])
    rising(rng, round_, rng.randint(0, 3), ["triangle", "random", "edge", "row"])
    return round_


def meeting(rng):
    """Two or three heads that walk towards each other, or to one that stands."""
    planes = rng.randint(1, 12)
    host = walkers(rng)
    round_ = start(rng, 1, rng.randint(2, 6), planes, rng.randint(0, 14), host, "blank")
    for state in rng.choice([[1, 2], [1, 3], [2, 3], [1, 2, 3], [1, 1, 2], [1, 2, 1, 2]]):
        i = rng.randrange(planes)
        round_.tape[i] = state << 4 | (round_.tape[i] & 15)
    rising(rng, round_, rng.randint(0, 3), ["triangle", "random", "edge", "column"])
    return round_


def heads_adjacent(rng):
    """Every way that two or three neighbours are live, staying, moving right and moving left."""
    planes = rng.randint(1, 4)
    host = random_machine(rng, rng.randint(1, 6), rng.randint(2, 4))
    round_ = start(rng, 1, rng.randint(2, 4), planes, rng.randint(1, 6), host, "heads")
    rising(rng, round_, rng.randint(0, 2))
    return round_


def foreign_heads(rng):
    side, planes = shape(rng, rng.choice(["small", "middle"]))
    round_ = start(rng, 1, side, planes, style="foreign")
    for _ in range(rng.randint(0, 2)):
        number = round_.records[-1].number if round_.records else 0
        strike(rng, round_, rng.randint(number, round_.beats), rng.choice(PATTERNS), byte=foreign(rng, round_.host))
    return round_


def ring_of(count):
    def scenario(rng):
        kind = rng.randrange(3) > 0
        round_ = start(rng, int(kind), rng.randint(2, 8), count, rng.randint(0, 12))
        rising(rng, round_, rng.randint(0, 3))
        return round_
    return scenario


def largest_machine(rng):
    round_ = start(rng, 1, rng.randint(2, 6), rng.randint(1, 20), rng.randint(0, 30), random_machine(rng, 15, 16), "random")
    rising(rng, round_, rng.randint(0, 3))
    return round_


def smallest_machine(rng):
    round_ = start(rng, 1, rng.randint(2, 6), rng.randint(1, 20), rng.randint(0, 30), random_machine(rng, 1, 2))
    rising(rng, round_, rng.randint(0, 3))
    return round_


# ------------------------------------------------------------------ damages
# Each takes a round and spoils one thing. Some need a kind; `KINDS` has it.

def a_record(rng, round_):
    """A record of the script to spoil; the script gets some if it has none."""
    if not round_.records:
        for _ in range(rng.randint(1, 5)):
            round_.records.append(Record(rng.choice([0, round_.beats]), 0, 0, 0, 0))
        round_.records.sort(key=lambda record: record.number)
        if round_.side == 1:
            rng.shuffle(round_.records)
    ends = [0, len(round_.records) - 1, rng.randrange(len(round_.records))]
    return rng.choice(ends)


def number_of(round_):
    return [record.number for record in round_.records]


def damage_2(rng, round_):
    round_.side = 1


def damage_5(rng, round_):
    for _ in range(rng.choice([1, 1, 2, 5])):
        i = rng.choice([0, len(round_.tape) - 1, rng.randrange(len(round_.tape))]) if round_.tape else None
        if i is not None:
            round_.tape[i] = rng.choice([2, 3, 0x10, 0x80, 0x81, 255, rng.randint(2, 255)])


def damage_7(rng, round_):
    if round_.planes < 4096:
        i = a_record(rng, round_)
        round_.records[i].plane = rng.choice([round_.planes, 4095, rng.randint(round_.planes, 4095)])


def damage_8(rng, round_):
    if round_.side < 64:
        record = round_.records[a_record(rng, round_)]
        wrong = rng.choice([round_.side, 63, rng.randint(round_.side, 63)])
        way = rng.randrange(3)
        if way != 1:
            record.row = wrong
        if way != 0:
            record.column = wrong


def damage_9(rng, round_):
    round_.records[a_record(rng, round_)].byte = rng.choice([2, 0x10, 255, rng.randint(2, 255)])


def damage_11(rng, round_):
    fit(round_)
    del round_.records[8180:]
    round_.tail = bytes(rng.randrange(256) for _ in range(rng.randint(1, 7)))


def damage_12(rng, round_):
    round_.records[a_record(rng, round_)].zeros = rng.choice([1, 0x800, 0x100, 0x080, 0xfff, rng.randint(1, 0xfff)])


def damage_13(rng, round_):
    i = rng.choice([a_record(rng, round_), len(round_.records) - 1])
    if round_.beats < MOST_BEATS:
        round_.records[i].number = rng.choice([round_.beats + 1, MOST_BEATS, rng.randint(round_.beats + 1, MOST_BEATS)])


def damage_14(rng, round_):
    """A record falls below the one before it."""
    round_.beats = max(round_.beats, 1)
    i = a_record(rng, round_)
    if i == 0:
        round_.records.insert(0, Record(0, 0, 0, 0, 0))
        i = 1
    earlier, later = round_.records[i - 1], round_.records[i]
    if earlier.number == 0:
        for record in round_.records[:i]:
            record.number = max(record.number, 1) if record is earlier else record.number
    later.number = rng.choice([0, earlier.number - 1])


def damage_17(rng, round_):
    way = rng.randrange(4)
    host = bytearray(round_.host)
    if way == 0 or not host:
        round_.host = b""
        return
    host[0] = {1: host[0] & 0x0f, 2: host[0] & 0xf0, 3: 0}[way]
    round_.host = bytes(host)


def damage_18(rng, round_):
    way = rng.randrange(5)
    if way == 0:
        round_.host = round_.host[:-1]
    elif way == 1:
        round_.host += b"\0"
    elif way == 2:
        round_.host = round_.host[:1]
    elif way == 3:
        round_.host += round_.host[1:3]
    elif round_.host:
        round_.host = bytes([round_.host[0] ^ 0x20 or 0x11]) + round_.host[1:]


def entry_damage(change):
    def damage(rng, round_):
        entries = (len(round_.host) - 1) // 2
        if entries > 0:
            i = rng.choice([0, entries - 1, rng.randrange(entries)])
            host = bytearray(round_.host)
            change(rng, host, 1 + 2 * i)
            round_.host = bytes(host)
    return damage


def change_19(rng, host, at):
    states = host[0] >> 4
    wrong = rng.choice([0, states + 1, 15]) if states < 15 else 0
    host[at] = wrong << 4 | (host[at] & 15)


def change_20(rng, host, at):
    symbols = (host[0] & 15) + 1
    if symbols < 16:
        host[at] = (host[at] & 0xf0) | rng.choice([symbols, 15, rng.randint(symbols, 15)])


def change_21(rng, host, at):
    host[at + 1] |= 0xc0


def change_22(rng, host, at):
    host[at + 1] |= rng.choice([1, 0x20, 0x3f, rng.randint(1, 0x3f)])


def damage_23(rng, round_):
    round_.cut = rng.choice([0, 1, 2, 5, 8, 8])


def damage_24(rng, round_):
    round_.kind = rng.choice([2, 3])


def damage_25(rng, round_):
    length = len(round_.bytes())
    way = rng.randrange(6)
    if way == 0:
        round_.cut = length - 1
    elif way == 1:
        round_.after = bytes(rng.choice([1, 8, 100]))
    elif way == 2:
        round_.cut = rng.choice([9, 10, rng.randint(9, max(9, length))])
    elif way == 3:
        round_.host_said = rng.choice([-1, 1, 256, 65535])
    elif way == 4:
        round_.script_said = rng.choice([-8, 8, 1, 65535])
    else:
        round_.planes = max(1, min(4096, round_.planes + rng.choice([-1, 1, 16, 256])))


def damage_26(rng, round_):
    if round_.side == 1:
        round_.side = 64
    while round_.planes * round_.side ** 2 <= MOST_COPIES:
        if rng.randrange(2) and round_.side < 64:
            round_.side = rng.randint(round_.side + 1, 64)
        elif round_.planes < 4096:
            more = min(MOST_COPIES // round_.side ** 2 + 1, 4096) - round_.planes
            round_.planes += more
            round_.tape += bytes(more)
        else:
            round_.side = 64


def damage_27(rng, round_):
    round_.host = bytes(rng.randrange(256) for _ in range(rng.choice([0, 0, 2, 2, 3, 5, 13])))


def damage_shift(rng, round_):
    """The lengths of host and script change, but not their sum: the parts of the file are cut elsewhere."""
    by = rng.choice([1, -1, 8, -8, 16])
    round_.host_said, round_.script_said = by, -by


def damage_kind(rng, round_):
    """The other of the two kinds."""
    round_.kind = 1 - round_.kind if round_.kind < 2 else rng.randrange(2)


DAMAGES = {
    2: damage_2, 5: damage_5, 7: damage_7, 8: damage_8, 9: damage_9, 11: damage_11, 12: damage_12, 13: damage_13,
    14: damage_14, 17: damage_17, 18: damage_18, 19: entry_damage(change_19), 20: entry_damage(change_20),
    21: entry_damage(change_21), 22: entry_damage(change_22), 23: damage_23, 24: damage_24, 25: damage_25,
    26: damage_26, 27: damage_27,
}
KINDS = {5: 0, 9: 0, 27: 0, 17: 1, 18: 1, 19: 1, 20: 1, 21: 1, 22: 1}
OF_RECORDS = [7, 8, 9, 12, 13, 14]


def sound(rng, kind):
    round_ = plain(rng, kind, rng.choice(["small", "small", "middle", "large"]))
    del round_.records[200:]
    return round_


def damaged(number):
    def scenario(rng):
        kind = KINDS.get(number, rng.randrange(2))
        round_ = sound(rng, kind)
        while number == 20 and shape_of(round_.host)[1] == 16:
            round_ = sound(rng, kind)
        if rng.randrange(8) == 0 and number not in (13, 14):  # refused rounds may say any number of beats
            if number not in (7, 8) or round_.planes < 4096 and round_.side < 64:
                round_.beats = rng.choice([MOST_BEATS, rng.randint(0, MOST_BEATS)])
                if number_of(round_) and max(number_of(round_)) > round_.beats:
                    round_.beats = MOST_BEATS
        DAMAGES[number](rng, round_)
        return round_
    return scenario


def several(rng, numbers=None):
    """Two to five damages at once, in any order."""
    kind = rng.randrange(2)
    round_ = sound(rng, kind)
    fitting = [number for number in numbers or DAMAGES if KINDS.get(number, kind) == kind]
    chosen = rng.sample(fitting, min(len(fitting), rng.randint(2, 5)))
    rng.shuffle(chosen)
    for number in chosen:
        DAMAGES[number](rng, round_)
    return round_


def several_late(rng):
    """Several damages after the header's questions."""
    return several(rng, [2, 5, 7, 8, 9, 11, 12, 13, 14, 17, 18, 19, 20, 21, 22, 26, 27])


def several_records(rng):
    return several(rng, OF_RECORDS)


def several_lay(rng):
    return several(rng, [2, 5] + OF_RECORDS + [11])


def one_record(rng):
    """Several damages of one record, or of two neighbours."""
    kind = rng.randrange(2)
    side, planes = rng.randint(2, 63), rng.randint(1, 4)
    round_ = start(rng, kind, side, planes, rng.randint(1, 5))
    round_.records = [Record(1, rng.randrange(planes), rng.randrange(side), rng.randrange(side), rng.randrange(2))
                      for _ in range(rng.randint(2, 6))]
    at = rng.randrange(1, len(round_.records))
    for record in round_.records[at - rng.randrange(2):at + 1]:
        for number in rng.sample(OF_RECORDS, rng.randint(1, 4)):
            spoil(rng, round_, record, number)
    return round_


def several_entries(rng):
    round_ = sound(rng, 1)
    for number in rng.choices([19, 20, 21, 22], k=rng.randint(2, 6)):
        DAMAGES[number](rng, round_)
    return round_


def spoil(rng, round_, record, number):
    """Spoils one record that has one of number 1 before it."""
    if number == 7:
        record.plane = rng.choice([round_.planes, 4095])
    elif number == 8:
        record.row, record.column = rng.choice([(round_.side, 0), (0, round_.side), (63, 63)])
    elif number == 9:
        record.byte = rng.randint(2, 255)
    elif number == 12:
        record.zeros = rng.randint(1, 4095)
    elif number == 13:
        record.number = round_.beats + rng.randint(1, 3)
    elif number == 14:
        record.number = 0


def record_pair(first, second):
    """One record that fails two questions."""
    def scenario(rng):
        side, planes = rng.randint(2, 63), rng.randint(1, 4)
        round_ = start(rng, 0 if 9 in (first, second) else rng.randrange(2), side, planes, rng.randint(1, 5))
        round_.records = [Record(1, rng.randrange(planes), rng.randrange(side), rng.randrange(side), rng.randrange(2))
                          for _ in range(rng.randint(2, 6))]
        record = round_.records[rng.randrange(1, len(round_.records))]
        spoil(rng, round_, record, first)
        spoil(rng, round_, record, second)
        return round_
    return scenario


def entry_pair(first, second):
    """One entry of a machine that fails two questions."""
    def scenario(rng):
        round_ = sound(rng, 1)
        round_.host = random_machine(rng, rng.randint(1, 14), rng.randint(2, 15))
        host = bytearray(round_.host)
        at = 1 + 2 * rng.randrange((len(host) - 1) // 2)
        for number in (first, second):
            {19: change_19, 20: change_20, 21: change_21, 22: change_22}[number](rng, host, at)
        round_.host = bytes(host)
        return round_
    return scenario


def pair(first, second):
    """A round with two damages, whose questions follow each other."""
    def scenario(rng):
        round_ = sound(rng, KINDS.get(first, KINDS.get(second, rng.randrange(2))))
        DAMAGES[first](rng, round_)
        DAMAGES[second](rng, round_)
        return round_
    return scenario


PAIRS = [(23, 24), (24, 25), (25, 26), (26, 27), (26, 17), (26, 2), (17, 18), (18, 19), (27, 2), (22, 2), (27, 5), (2, 5),
         (5, 11), (2, 11), (11, 12), (5, 12)]
RECORD_PAIRS = [(12, 13), (12, 14), (13, 7), (14, 7), (14, 8), (7, 8), (7, 9), (8, 9)]
ENTRY_PAIRS = [(19, 20), (20, 21), (21, 22), (19, 22)]


def shifted(rng):
    round_ = sound(rng, rng.randrange(2))
    damage_shift(rng, round_)
    return round_


def other_kind(rng):
    round_ = sound(rng, rng.randrange(2))
    damage_kind(rng, round_)
    return round_


def flipped(rng):
    """A round in order, with some bits of the file flipped. Never one that would play long."""
    while True:
        file = bytearray(sound(rng, rng.randrange(2)).bytes())
        for _ in range(rng.choice([1, 1, 1, 2, 3])):
            at = rng.choice([rng.randrange(9), rng.randrange(len(file)), rng.randrange(len(file))])
            file[at] ^= 1 << rng.randrange(8)
        if work_of(file) <= 2 * WORK:
            return bytes(file)


def noise(rng):
    """Random bytes under a header that fits them, or with none."""
    while True:
        if rng.randrange(3) == 0:
            file = bytes(rng.randrange(256) for _ in range(rng.randint(0, 60)))
        else:
            kind, planes = rng.randrange(2), rng.randint(1, 12)
            host = bytes(rng.randrange(256) for _ in range(rng.choice([0, 1, 1, 5, 9])))
            round_ = Round(kind, rng.randint(1, 20), planes, rng.randint(0, 20), host,
                           bytes(rng.randrange(2 if rng.randrange(2) else 256) for _ in range(planes)))
            round_.tail = bytes(rng.randrange(256) for _ in range(rng.choice([0, 0, 8, 16, 7])))
            file = round_.bytes()
        if work_of(file) <= 2 * WORK:
            return file


def work_of(file):
    """Copies times beats, as the header says them."""
    if len(file) < 9:
        return 0
    header = int.from_bytes(file[:9], "big")
    side, planes, beats = (header >> 64 & 63) + 1, (header >> 52 & 4095) + 1, header >> 32 & 0xfffff
    copies = planes * side * side
    return copies * beats if copies <= MOST_COPIES else 0


# ------------------------------------------------------------------ long rounds
# Each takes a round with an empty script and wounds it. Rows and columns last, antidiagonals move for ever, a cross of a row and a
# column grows until all is wounded, and all else heals, if nothing strikes it again.

LONG_WORK = 60_000_000  # copies times beats
LINES = ["row", "column", "antidiagonal"]


def long_shape(rng, size):
    if size == "small":
        return rng.randint(2, 6), rng.choice([1, 2, 3, rng.randint(1, 12)])
    if size == "middle":
        side = rng.randint(6, 31)
        return side, rng.randint(1, min(64, MOST_COPIES // side ** 2))
    side = rng.choice([2, 2, 3, 4, 8, 8, 16, 32, 33, 48, 63, 64, 64])
    return side, min(4096, MOST_COPIES // side ** 2) - rng.choice([0, 0, 0, 1]) * (side < 64)


def long_start(rng, kind, size):
    """A round with an empty script, and one in four with a host that leaves the tape as it is."""
    side, planes = long_shape(rng, size)
    host, style = random_host(rng, kind), None
    if rng.randrange(4) == 0:
        host, style = (bytes([204]), None) if kind == 0 else (host, "blank")
    beats = rng.choice([1000, 1023, 1024, 1025, 2046, 2047, 2048, 4096, rng.randint(1000, 20000), 20000])
    round_ = start(rng, kind, side, planes, 0, host, style)
    round_.beats = max(1000, min(beats, LONG_WORK // (planes * side * side)))
    return round_


def hit(rng, round_, number, pattern, way="one"):
    """Strikes a pattern, mostly in one plane, with one cell that differs from the tape's, with any cells, or with the tape's own."""
    places = places_of(rng, round_.side, pattern)
    count = round_.planes if rng.randrange(8) == 0 else rng.choice([1, 1, 2])
    for plane in rng.sample(range(round_.planes), min(count, round_.planes)):
        own = round_.tape[plane]
        one = 1 - own if round_.kind == 0 else own ^ rng.randint(1, 255)
        for row, column in places:
            byte = {"one": one, "own": own, "any": random_cell(rng, round_.kind, round_.host)}[way]
            round_.records.append(Record(number, plane, row, column, byte))


def numbers(rng, round_, count):
    return [rng.randint(0, round_.beats) for _ in range(count)]


def long_line(pattern):
    def wound(rng, round_):
        hit(rng, round_, rng.choice([0, 0, rng.randint(1, 600)]), pattern, rng.choice(["one", "one", "any"]))
        for number in numbers(rng, round_, rng.choice([0, 0, 3, 40])):
            hit(rng, round_, number, "random", "any")
    return wound


def long_lines(rng, round_):
    """Several lines, often at once, until many places are wounded."""
    for _ in range(rng.randint(2, 9)):
        number = rng.choice([0, 500, rng.randint(0, round_.beats)])
        hit(rng, round_, number, rng.choice(LINES))


def long_triangles(rng, round_):
    for number in numbers(rng, round_, rng.randint(1, 8)):
        hit(rng, round_, number, "triangle", rng.choice(["one", "any"]))


def long_scattered(rng, round_):
    for number in numbers(rng, round_, rng.choice([1, 20, 300, 2000])):
        round_.records.append(Record(number, rng.randrange(round_.planes), rng.randrange(round_.side),
                                     rng.randrange(round_.side), random_cell(rng, round_.kind, round_.host)))


def long_ends(rng, round_):
    """Strikes before the first beat, and after the last one and the one before it."""
    for number in (0, round_.beats - 1, round_.beats):
        hit(rng, round_, number, rng.choice(PATTERNS + ["cross"]), rng.choice(["one", "any"]))


def long_unchanged(rng, round_):
    """Lines and other patterns of strikes with the tape's own cells, at first, and later where the host leaves them."""
    for number in [0] + numbers(rng, round_, 3):
        hit(rng, round_, number, rng.choice(LINES + ["random", "square", "all"]), "own")


def long_crowded(rng, round_):
    """Many strikes of one number."""
    for number in numbers(rng, round_, rng.randint(1, 2)):
        for _ in range(rng.choice([50, 500, 3000])):
            round_.records.append(Record(number, rng.randrange(round_.planes), rng.randrange(round_.side),
                                         rng.randrange(round_.side), random_cell(rng, round_.kind, round_.host)))


def long_mended(rng, round_):
    """A line, and later one of its places with the tape's cell: where the host leaves the tape, the line heals from there."""
    first = rng.randint(0, 400)
    hit(rng, round_, first, rng.choice(LINES))
    record = rng.choice(round_.records)
    later = rng.randint(first, round_.beats)
    for plane in range(min(round_.planes, 16)):
        round_.records.append(Record(later, plane, record.row, record.column, round_.tape[plane]))


def long_halves(rng, round_):
    """A row in two halves: the second comes with the first, or one beat or some beats later."""
    number = rng.randint(0, 900)
    hit(rng, round_, number, "row")
    for record in rng.sample(round_.records, len(round_.records) // 2):
        record.number += rng.choice([0, 1, 2])


def long_dense(rng, round_):
    """So many wounds that hardly a place is left, and now and then more."""
    for number in (0, rng.randint(0, round_.beats)):
        hit(rng, round_, number, rng.choice(["all", "square", "cross"]), rng.choice(["one", "any"]))
        hit(rng, round_, number, rng.choice(LINES), "any")


def long_scenario(wound, kind, size):
    def scenario(rng):
        round_ = long_start(rng, kind, size)
        wound(rng, round_)
        round_.records.sort(key=lambda record: record.number)
        fit(round_)
        return round_
    return scenario


def long_scenarios():
    wounds = [(pattern, long_line(pattern)) for pattern in LINES + ["cross"]]
    wounds += [(wound.__name__[5:], wound) for wound in (
        long_lines, long_triangles, long_scattered, long_ends, long_unchanged, long_crowded, long_mended, long_halves,
        long_dense)]
    return [(f"long-{name}-{kind}-{size}", long_scenario(wound, kind, size))
            for name, wound in wounds for size in ("small", "middle", "large") for kind in (0, 1)]


# ------------------------------------------------------------------ all scenarios

def scenarios():
    out = []
    for kind in (0, 1):
        for size in ("small", "middle", "large"):
            out.append((f"plain-{kind}-{size}", lambda rng, kind=kind, size=size: plain(rng, kind, size)))
    out += [(pattern, with_pattern(pattern)) for pattern in PATTERNS + ["all"]]
    out += [(scenario.__name__, scenario) for scenario in (
        half, thirds, same_place, wide, tall, full, nearly_full, one_plane_more, many_beats, most_beats, empty_script,
        no_beats, longest_script, too_long, beaver, meeting, heads_adjacent, foreign_heads, largest_machine,
        smallest_machine)]
    out += [("ring-1", ring_of(1)), ("ring-2", ring_of(2))]
    out += [(f"damage-{number}", damaged(number)) for number in DAMAGES]
    out += [(scenario.__name__, scenario) for scenario in (
        several, several_late, several_records, several_lay, one_record, several_entries, shifted, other_kind, flipped,
        noise)]
    out += [(f"pair-{one}-{two}", pair(one, two)) for one, two in PAIRS]
    out += [(f"record-{one}-{two}", record_pair(one, two)) for one, two in RECORD_PAIRS]
    out += [(f"entry-{one}-{two}", entry_pair(one, two)) for one, two in ENTRY_PAIRS]
    return out


def main():
    is_long = sys.argv[1:2] == ["--long"]
    words = sys.argv[2:] if is_long else sys.argv[1:]
    if len(words) != 3:
        sys.exit("generate.py [--long] COUNT SEED FOLDER")
    count, seed, folder = int(words[0]), int(words[1]), words[2]
    os.makedirs(folder, exist_ok=True)
    every = long_scenarios() if is_long else scenarios()
    for i in range(count):
        name, scenario = every[i % len(every)]
        made = scenario(random.Random(f"{seed} {i}"))
        with open(os.path.join(folder, f"{i:05d}-{name}.round"), "wb") as file:
            file.write(made if isinstance(made, bytes) else made.bytes())


if __name__ == "__main__":
    main()
