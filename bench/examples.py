#!/usr/bin/env python3
"""examples.py PROGRAM: checks a program against the examples of the documents that a round can show."""
import os
import subprocess
import sys
import tempfile

SAMPLE = bytes.fromhex("020010000100010020" "CC" "0100" "0000000000000000" "0000000000100000" "0000000004000000"
                       "0000100108200000")
REPORT = "age 1\nshadow 2\nhurt 1\n#..\n...\n..s\ntape 0100\n"
BEAVER = bytes.fromhex("31218021401140318030003100")


def round_(kind, side, planes, beats, host, tape, script=b""):
    value = kind
    for field, bits in ((side - 1, 6), (planes - 1, 12), (beats, 20), (len(host), 16), (len(script), 16)):
        value = value << bits | field
    return value.to_bytes(9, "big") + host + tape + script


def record(number, plane, row, column, byte, zeros=0):
    value = number
    for field, bits in ((plane, 12), (row, 6), (column, 6), (byte, 8), (zeros, 12)):
        value = value << bits | field
    return value.to_bytes(8, "big")


def with_byte(at, byte):
    return SAMPLE[:at] + bytes([byte]) + SAMPLE[at + 1:]


RULE = b"\xcc"


def sixteen(count):
    return round_(0, 4, 1, 0, RULE, b"\0", b"".join(record(0, 0, i // 4, i % 4, 1) for i in range(count)))


def marks(side, beats, places):
    return round_(0, side, 1, beats, RULE, b"\0", b"".join(record(0, 0, r, c, 1) for r, c in places))


EXAMPLES = [
    # FORMATS.md, the table of inputs and outputs
    ("the 44 bytes", SAMPLE, REPORT),
    ("nothing", b"", "refused 23 round 0\n"),
    ("one byte", SAMPLE[:1], "refused 23 round 0\n"),
    ("8 bytes", SAMPLE[:8], "refused 23 round 0\n"),
    ("8 bytes of kind 1", b"\x42" + SAMPLE[1:8], "refused 23 round 0\n"),
    ("8 bytes of kind 2", b"\x82" + SAMPLE[1:8], "refused 23 round 0\n"),
    ("kind 2", with_byte(0, 0x82), "refused 24 round 0\n"),
    ("kind 3", with_byte(0, 0xc2), "refused 24 round 0\n"),
    ("one more", SAMPLE + b"\0", "refused 25 round 0\n"),
    ("one less", SAMPLE[:43], "refused 25 round 0\n"),
    ("kind 1", with_byte(0, 0x42), "refused 18 host 0\n"),
    ("P of 1", with_byte(0, 0x00), "refused 2 lay 0\n"),
    ("tape 02", with_byte(11, 0x02), "refused 5 lay 1\n"),
    ("padding", with_byte(43, 0x01), "refused 12 run 3\n"),
    # FORMATS.md, the line of a refusal
    ("tape 3", round_(0, 2, 5, 0, RULE, bytes([0, 1, 0, 2, 2])), "refused 5 lay 3\n"),
    ("record 2", round_(0, 2, 2, 0, RULE, bytes(2), record(0, 0, 0, 0, 0) * 2 + record(0, 2, 0, 0, 0)),
     "refused 7 strike 2\n"),
    # FORMATS.md, more than 65,535 bytes
    ("65,536 bytes of kind 0", bytes(65536), "refused 25 round 0\n"),
    ("70,000 bytes of kind 1", b"\x42" + bytes(69999), "refused 25 round 0\n"),
    ("70,000 bytes of kind 2", b"\x82" + bytes(69999), "refused 24 round 0\n"),
    ("65,536 bytes as the header says", round_(0, 2, 6, 0, RULE, bytes(6), record(0, 0, 0, 0, 0) * 8190),
     "refused 25 round 0\n"),
    ("65,535 bytes", round_(0, 2, 5, 0, RULE, bytes(5), record(0, 0, 0, 0, 0) * 8190),
     "age 0\nshadow 1\nhurt 0\ns.\n..\ntape 0000000000\n"),
    # REFUSALS.md, the machine file
    ("machine 19", round_(1, 2, 1, 0, bytes.fromhex("1102C11000"), b"\0"), "refused 19 host 0\n"),
    ("machine 22", round_(1, 2, 1, 0, bytes.fromhex("1110010000"), b"\0"), "refused 22 host 0\n"),
    # REFUSALS.md, run
    ("run 7", round_(0, 2, 1, 1, RULE, b"\0", record(0, 1, 0, 0, 0) + record(0, 0, 0, 0, 0, 1)), "refused 7 strike 0\n"),
    ("run 13", round_(0, 2, 1, 1, RULE, b"\0", record(2, 0, 0, 0, 0) + record(1, 0, 0, 0, 0)), "refused 13 run 0\n"),
    ("run 14", round_(0, 2, 1, 1, RULE, b"\0", record(1, 0, 0, 0, 0) + record(0, 0, 0, 0, 0)), "refused 14 run 1\n"),
    ("run 11", round_(0, 2, 1, 1, RULE, b"\0", bytes(9)), "refused 11 run 0\n"),
    ("run 11, bytes of ones", round_(0, 2, 1, 1, RULE, b"\0", b"\xff" * 9), "refused 11 run 0\n"),
    # REFUSALS.md, play
    ("another kind, too long", with_byte(0, 0x82) + b"\0", "refused 24 round 0\n"),
    ("bit rule of two bytes", round_(0, 2, 1, 0, b"\0\0", b"\0"), "refused 27 host 0\n"),
    ("5 planes of side 64", round_(0, 64, 5, 0, RULE, bytes(5)), "refused 26 round 0\n"),
    # RULES.md
    ("beaver", round_(1, 2, 7, 6, BEAVER, bytes.fromhex("00000010000000")),
     "age 6\nshadow 0\nhurt 0\n..\n..\ntape 00010131010000\n"),
    ("seven of 16", sixteen(7), "age 0\nshadow 7\nhurt 7\n####\n###.\n....\n....\ntape 00\n"),
    ("eight of 16", sixteen(8), "age 0\nshadow 8\nhurt 8\n####\n####\n....\n....\nno majority 0\n"),
    ("nine of 16", sixteen(9), "age 0\nshadow 9\nhurt 9\n####\n####\n#...\n....\ntape 01\n"),
    ("row stays", marks(3, 100, [(0, 0), (0, 1), (0, 2)]), "age 100\nshadow 3\nhurt 3\n###\n...\n...\ntape 00\n"),
    ("column stays", marks(3, 100, [(0, 1), (1, 1), (2, 1)]), "age 100\nshadow 3\nhurt 3\n.#.\n.#.\n.#.\ntape 00\n"),
    ("antidiagonal moves", marks(3, 1, [(0, 2), (1, 1), (2, 0)]), "age 1\nshadow 3\nhurt 3\n.#.\n#..\n..#\ntape 00\n"),
    ("antidiagonal returns", marks(3, 3, [(0, 2), (1, 1), (2, 0)]), "age 3\nshadow 3\nhurt 3\n..#\n.#.\n#..\ntape 00\n"),
]


def main():
    program = os.path.abspath(sys.argv[1])
    wrong = 0
    for name, file, wanted in EXAMPLES:
        done = subprocess.run([program], input=file, capture_output=True)
        if done.returncode != 0 or done.stdout.decode() != wanted or done.stderr:
            wrong += 1
            print(f"wrong: {name}: status {done.returncode}, {done.stdout[:200]!r}, wanted {wanted[:200]!r}")
    # Files as arguments, `-` among them.
    with tempfile.TemporaryDirectory() as folder:
        path = os.path.join(folder, "a.round")
        with open(path, "wb") as file:
            file.write(SAMPLE)
        done = subprocess.run([program, path, "-", path], input=b"", capture_output=True)
        if done.returncode != 0 or done.stdout.decode() != REPORT + "refused 23 round 0\n" + REPORT:
            wrong += 1
            print("wrong: arguments")
        done = subprocess.run([program, os.path.join(folder, "none")], input=b"", capture_output=True)
        if done.returncode != 1 or done.stdout or not done.stderr.startswith(b"Error: "):
            wrong += 1
            print("wrong: a file that is not there")
    print(f"{len(EXAMPLES) + 2} examples, {wrong} wrong")
    sys.exit(wrong != 0)


main()
