#!/usr/bin/env python3
"""keep.py SECOND FOLDER LONG KEPT: writes the file KEPT of 440 rounds and the replies of the program SECOND to them.

The first 400 rounds are the shipped ones, rounds/*.round, and some of FOLDER, which generate.py made; the other 40 are
some of LONG, which generate.py --long made. The same rounds and the same SECOND give the same file. SECOND is the second
implementation: the proved program is never asked for a reply. docs/FORMATS.md has the format. What is kept was made, at
the top of the repository, by

    cc -O2 -o /tmp/second bench/second.c
    bench/generate.py 2400 1 /tmp/generated
    bench/generate.py --long 156 1 /tmp/long
    bench/keep.py /tmp/second /tmp/generated /tmp/long crates/kept/data/rounds.kept

Printed is a line for each round, with its index from 0, its length, that of its reply, its name and the ending of its
reply. Then come the number of rounds with each ending, and the sizes.
"""
import collections
import os
import subprocess
import sys

ROUNDS = 400          # but for the long ones
LONG_ROUNDS = 40
LEAST_BEATS = 1_000   # of a long round
MOST_BYTES = 600_000  # of the kept file
LARGE = 30_000        # bytes of a round and its reply from which on one of a scenario is enough
SMALL = 1_200         # bytes of those that fill the file
EACH = 3              # of each ending, kind by kind
# Every number by which a round can be refused.
NUMBERS = [2, 5, 7, 8, 9, 11, 12, 13, 14, 17, 18, 19, 20, 21, 22, 23, 24, 25, 26, 27]
SHIPPED = os.path.join(os.path.dirname(os.path.abspath(__file__)), os.pardir, "rounds")


class Round:
    def __init__(self, second, folder, name):
        self.name = name
        self.scenario = name.split(".")[0].split("-", 1)[-1]
        with open(os.path.join(folder, name), "rb") as file:
            self.file = file.read()
        done = subprocess.run([second], input=self.file, capture_output=True, check=True)
        self.reply = done.stdout

    def size(self):
        return len(self.packed())

    def packed(self):
        return b"".join(len(part).to_bytes(4, "big") + part for part in (self.file, self.reply))

    def kind(self):
        return self.file[0] >> 6 if self.file else 0

    def ending(self):
        """How the reply ends: with a tape or no majority, or with the number of a refusal."""
        if self.reply.startswith(b"refused "):
            return "refused " + self.reply.split()[1].decode()
        return self.reply.splitlines()[-1].rsplit(b" ", 1)[0].decode()

    def is_whole(self):
        """Whether the file is as long as its header says."""
        header = int.from_bytes(self.file[:9], "big")
        planes, host, script = (header >> 52 & 4095) + 1, header >> 16 & 0xffff, header & 0xffff
        return len(self.file) == 9 + host + planes + script

    def age(self):
        """The age that a report tells; 0 for a refusal."""
        return int(self.reply.split()[1]) if self.reply.startswith(b"age ") else 0


def read(second, folder):
    return [Round(second, folder, name) for name in sorted(os.listdir(folder)) if name.endswith(".round")]


def choose(rounds):
    """The round with the longest reply, that with the greatest age, and the shortest that is refused for its length alone;
    the first round of each scenario, and the first of each kind in it that is not large; the first three small ones of
    each kind and ending; and then small ones, the first first. No file twice, and all in the order of `rounds`."""
    scenarios, kinds, files, endings, chosen = set(), set(), set(), collections.Counter(), set()

    def take(wanted):
        for i, round_ in enumerate(rounds):
            if len(chosen) < ROUNDS and round_.file not in files and wanted(round_):
                scenarios.add(round_.scenario)
                kinds.add((round_.scenario, round_.kind()))
                files.add(round_.file)
                endings[round_.kind(), round_.ending()] += 1
                chosen.add(i)

    too_long = (round_ for round_ in rounds if round_.is_whole() and round_.ending() == "refused 25")
    bounds = [max(rounds, key=lambda round_: len(round_.reply)), max(rounds, key=Round.age),
              min(too_long, key=lambda round_: len(round_.file))]
    take(lambda round_: round_ in bounds)
    take(lambda round_: round_.scenario not in scenarios)
    take(lambda round_: (round_.scenario, round_.kind()) not in kinds and round_.size() < LARGE)
    take(lambda round_: endings[round_.kind(), round_.ending()] < EACH and round_.size() <= SMALL)
    take(lambda round_: round_.size() <= SMALL)
    return [rounds[i] for i in sorted(chosen)]


def choose_long(rounds):
    """Of those that are not large, the round with the longest reply; and of each way to wound at each size the first, of the
    two kinds by turns. All in the order of `rounds`."""
    small = [round_ for round_ in rounds if round_.size() < LARGE]
    chosen, sizes = {max(small, key=lambda round_: len(round_.reply))}, set()
    for round_ in small:
        _, wound, kind, size = round_.scenario.split("-")
        if (wound, size) not in sizes and int(kind) == len(sizes) % 2:
            sizes.add((wound, size))
            chosen.add(round_)
    return [round_ for round_ in small if round_ in chosen]


def main():
    if len(sys.argv) != 5:
        sys.exit("keep.py SECOND FOLDER LONG KEPT")
    second, (folder, long_folder, kept) = os.path.abspath(sys.argv[1]), sys.argv[2:]
    rounds = choose(read(second, SHIPPED) + read(second, folder))
    long_rounds = choose_long(read(second, long_folder))
    counts = len(rounds), len(long_rounds)
    short = [round_.name for round_ in long_rounds if round_.age() < LEAST_BEATS]
    rounds += long_rounds
    endings = collections.Counter(round_.ending() for round_ in rounds)
    missing = [number for number in NUMBERS if f"refused {number}" not in endings]
    packed = b"".join(round_.packed() for round_ in rounds)
    if counts != (ROUNDS, LONG_ROUNDS) or short or missing or len(packed) > MOST_BYTES:
        sys.exit(f"keep.py: {counts} rounds, {len(packed)} bytes, not long {short}, no refusal {missing}: nothing is written")
    with open(kept, "wb") as file:
        file.write(packed)
    for i, round_ in enumerate(rounds):
        print(i, len(round_.file), len(round_.reply), round_.name, f"({round_.ending()})")
    for ending, count in sorted(endings.items(), key=lambda item: (item[0].split()[0], len(item[0]), item[0])):
        print(f"{ending}: {count}")
    print(f"{len(rounds)} rounds in {len(packed)} bytes")


if __name__ == "__main__":
    main()
