#!/usr/bin/env python3
"""Respells the repository's own definitions and lemmas: words in snake case, types and facts in camel case.

Run once at the top, after the toolchain's port script. It collects the names that the .antt files of specs/ and proofs/ declare, maps each
with a dash (or a capital and an underscore) to its new spelling, and turns them token by token in .antt files, in the clauses of .rt files
and in must-fail edits. Names of goals, which the check makes from the source, keep their dashes. Names that would fall together with one that
is there already are printed, and left alone unless KEEP_APART gives them another name.

  python3 tools/spell.py            writes
  python3 tools/spell.py --dry      prints the map and what falls together
"""
import glob
import re
import sys

# The ghost members of a kind of cell, which are declared in src/.
MEMBERS = {"byteOf": "byte_of", "cellOf": "cell_of"}

# Names that would fall together with another.
KEEP_APART = {}

# A name is a run of characters that none of these ends.
TOKEN = re.compile(r"[^\s(){}\[\].,;λ\"`]+")
RECORD = re.compile(r"^\s*(?:pub\s+)?(?:record|data)\s+([^\s(){}.,;:]+)()")
SIGNATURE = re.compile(r"^\s*(?:(?:abbrev|unfoldable|pub|record|data)\s+)*([^\s(){}.,;:]+)(?:\s*(?:\([^()]*\)|\{[^{}]*\}))*\s*:(?:\s+(.*))?$")


def antt_files():
    return sorted(glob.glob("crates/*/specs/*.antt") + glob.glob("crates/*/proofs/**/*.antt", recursive=True))


def source_files():
    return sorted(glob.glob("crates/*/src/**/*.rt", recursive=True))


def new_name(name):
    if name[0].isupper():
        parts = re.split(r"[-_]", name)
        return "".join(p[:1].upper() + p[1:] for p in parts)
    return name.replace("-", "_")


def wants(name):
    return name[0].isalpha() and ("-" in name or (name[0].isupper() and "_" in name))


def declared():
    names = {}
    for path in antt_files():
        with open(path) as f:
            for line in f:
                if line.lstrip().startswith("--"):
                    continue
                m = RECORD.match(line) or SIGNATURE.match(line.rstrip("\n"))
                if not m or not wants(m.group(1)):
                    continue
                if (m.group(2) or "").startswith("goal."):
                    continue
                names.setdefault(m.group(1), set()).add(path)
    return names


def tokens(text):
    # without comments and strings
    text = re.sub(r"(?m)(--|//).*$", "", text)
    text = re.sub(r"\"(?:[^\"\\]|\\.)*\"", "", text)
    return set(TOKEN.findall(text))


def turn(text, table, mark):
    """Turns the tokens of the code; in a comment, only names with a capital, which no plain word has."""

    def code(part):
        return TOKEN.sub(lambda m: table.get(m.group(0), m.group(0)), part)

    def comment(part):
        return TOKEN.sub(lambda m: table.get(m.group(0), m.group(0)) if m.group(0)[0].isupper() else m.group(0), part)

    out = []
    for line in text.split("\n"):
        at = line.find(mark) if mark else -1
        if at >= 0:
            line = code(line[:at]) + comment(line[at:])
        else:
            line = code(line)
        out.append(line)
    return "\n".join(out)


def main():
    dry = "--dry" in sys.argv
    names = declared()
    table = {n: KEEP_APART.get(n, new_name(n)) for n in names}
    table.update(MEMBERS)
    used = {p: tokens(open(p).read()) for p in antt_files() + source_files()}
    new = {}
    for old, now in table.items():
        new.setdefault(now, []).append(old)
    for now, olds in sorted(new.items()):
        if len(olds) > 1:
            print("together:", now, "from", ", ".join(olds))
    for old, now in sorted(table.items()):
        with_old = {p for p, t in used.items() if old in t}
        with_new = {p for p, t in used.items() if now in t}
        if with_new:
            print("there already:", now, "for", old, "| in the same file:", sorted(with_old & with_new), "| elsewhere:", sorted(with_new - with_old))
    if dry:
        for old, now in sorted(table.items()):
            print(f"{old}\t{now}")
        return
    for path in antt_files() + source_files() + sorted(glob.glob("crates/*/must-fail/*.edit")):
        with open(path) as f:
            text = f.read()
        mark = "--" if path.endswith(".antt") else "//" if path.endswith(".rt") else None
        after = turn(text, table, mark)
        if after != text:
            with open(path, "w") as f:
                f.write(after)


if __name__ == "__main__":
    main()
