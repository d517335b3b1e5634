#!/usr/bin/env python3
"""speed.py: plays the same rounds with `round` and with the plain C plate, and prints a table of times and peak memory.

    bench/speed.py [--long | --crossing] [--round PROGRAM] [--plain PROGRAM] [--repeat N] [--rows WORD] [--start N]

With no --plain it compiles bench/plain.c with gcc. The rounds are the same in every run. Each is played N times by
both programs in turn, and the least processor time of each counts. Where their reports differ in a byte it says so, and
ends with status 1. --rows plays only the rows whose name has the word, as in --rows machine.

With --long the rounds are of full length, 1,048,575 beats: with no strikes, with scattered ones, and with a line of wounds that
lasts. The plain program plays them by wounds, as a rule once; --repeat says how often. Its dense mode plays so many beats
that it takes some seconds, and its time is scaled.

With --crossing it measures where beats by the wounds and dense ones take as long. `round` alone plays, rounds in which no cell
ever changes: lines of one plane are struck before the first beat, and their wounds last. The first table is of beats with no strike
among them, the second of beats with a strike after every so many, which alters no copy. START is the cost of one wound in cells of
dense beats, less n. --start says what `round` has for START in crates/plate/src/wounds.rt, 124 if it is not told: so the script knows
how many wounds are few, which is the column "few". Words for --rows are row, column, antidiagonal, spans, machine, "bits 64 4" and so
on. It takes some three minutes.
"""
import argparse
import os
import platform
import random
import statistics
import subprocess
import sys
import tempfile

HERE = os.path.dirname(os.path.realpath(__file__))
COMPILE = ["gcc", "-O3", "-march=x86-64-v2"]  # the processor that `round` is built for
LONGEST = 65535
SCATTERED = 6000
MOST_BEATS = 1048575
DENSE_BEATS = 20000  # those that the dense mode plays of a long round
STAY, LEFT, RIGHT = 0, 1, 2

# Sides and planes, all of 16,384 copies.
SHAPES = ((64, 4), (8, 256), (2, 4096))
BEATS = {"bits": 16000, "machine": 8000}

# Where beats by the wounds and dense ones cross.
CROSSING_SHAPES = ((64, 4), (64, 1), (32, 16), (16, 64), (8, 256), (2, 4096))
LINES = ("row", "column", "antidiagonal")
GAPS = (2, 4, 8, 12, 16, 20, 40, 100)
LOOK, PLANE, LONGEST_SPAN = 2, 35, 8192  # of crates/plate/src, as --start
LONGEST_HOST = 481
SECONDS = 0.15  # of dense beats in one play
TRIAL = 4000  # the beats by which that number of beats is found


def rule_110():
    return bytes([110])


def marching_machine(rng):
    """15 states of 16 symbols, in five groups of three. All heads begin in group 0 and pass through the groups together, so that
    they all move the same way and none is lost. What a head writes and which state of the next group it takes are drawn."""
    moves = (RIGHT, RIGHT, STAY, LEFT, RIGHT)
    out = bytearray([15 << 4 | 15])
    for state in range(15):
        group = state // 3
        for _ in range(16):
            following = 3 * ((group + 1) % 5) + 1 + rng.randrange(3)
            out += bytes([following << 4 | rng.randrange(16), moves[group] << 6])
    return bytes(out)


def tape(rng, kind, planes):
    if kind == "bits":
        return bytes(rng.randrange(2) for _ in range(planes))
    heads = [1 + rng.randrange(3) for _ in range(planes // 2)] + [0] * (planes - planes // 2)
    rng.shuffle(heads)
    return bytes(head << 4 | rng.randrange(16) for head in heads)


def fields(value, *pairs):
    for field, bits in pairs:
        value = value << bits | field
    return value


def record(number, plane, row, column, byte):
    return fields(number, (plane, 12), (row, 6), (column, 6), (byte, 8), (0, 12)).to_bytes(8, "big")


def script(rng, kind, side, planes, numbers):
    """A strike after each of these numbers of beats, with a plane, a place and a byte that are drawn."""
    out = []
    for number in numbers:
        byte = rng.randrange(2 if kind == "bits" else 256)
        out.append(record(number, rng.randrange(planes), rng.randrange(side), rng.randrange(side), byte))
    return out


def file_of(kind, side, planes, beats, host, cells, records):
    strikes = b"".join(records)
    header = fields(0 if kind == "bits" else 1, (side - 1, 6), (planes - 1, 12), (beats, 20), (len(host), 16), (len(strikes), 16))
    return header.to_bytes(9, "big") + host + cells + strikes


def round_file(kind, side, planes, is_struck):
    rng = random.Random(f"{kind} {side} {planes} {is_struck}")
    beats = BEATS[kind]
    host = rule_110() if kind == "bits" else marching_machine(rng)
    cells = tape(rng, kind, planes)
    room = LONGEST - 9 - len(host) - planes
    records = script(rng, kind, side, planes, range(0, beats, 2)[:room // 8]) if is_struck else []
    return file_of(kind, side, planes, beats, host, cells, records), len(records)


# What strikes a long round. The lines are struck in plane 0 before the first beat, each with one cell that is not the line's: a
# row and a column stay where they are, and an antidiagonal (row and column add up to one number mod the side) moves by one. There
# is one `line` of each sort for each number below the side.
LONG = {
    "none": None,
    "scattered": None,
    "row": lambda side, k, line=0: ((side // 2 + line) % side, k),
    "column": lambda side, k, line=0: (k, (side // 2 + line) % side),
    "antidiagonal": lambda side, k, line=0: (k, (line - 1 - k) % side),
}


def long_files(kind, side, planes, what):
    """The round, the same of so few beats that the dense mode can play it, and the number of strikes."""
    rng = random.Random(f"{kind} {side} {planes} long")
    host = rule_110() if kind == "bits" else marching_machine(rng)
    cells = tape(rng, kind, planes)
    records = []
    if what == "scattered":
        count = min(SCATTERED, (LONGEST - 9 - len(host) - planes) // 8)
        records = script(rng, kind, side, planes, sorted(rng.randrange(MOST_BEATS + 1) for _ in range(count)))
    elif what != "none":
        records = [record(0, 0, *LONG[what](side, k), cells[0] ^ 1) for k in range(side)]
    early = [it for it in records if int.from_bytes(it, "big") >> 44 <= DENSE_BEATS]
    return (file_of(kind, side, planes, MOST_BEATS, host, cells, records),
            file_of(kind, side, planes, DENSE_BEATS, host, cells, early), len(records))


def play(program, path, *words):
    """What the program writes, and its processor time in seconds."""
    with subprocess.Popen([program, *words, path], stdin=subprocess.DEVNULL, stdout=subprocess.PIPE) as ran:
        wrote = ran.stdout.read()
        _, status, used = os.wait4(ran.pid, 0)
        ran.returncode = os.waitstatus_to_exitcode(status)
    if ran.returncode:
        sys.exit(f"speed.py: {program} ended with {ran.returncode}")
    return wrote, used.ru_utime + used.ru_stime


def peak(program, path):
    """Peak memory in KiB. By `time`, since the system counts what this interpreter holds for a child that it starts itself."""
    words = ["/usr/bin/time", "-f", "%M", program, path]
    return int(subprocess.run(words, stdout=subprocess.DEVNULL, stderr=subprocess.PIPE, check=True).stderr.split()[-1])


def measure(programs, path, repeat):
    """For `plain` and `round`: the least time of `repeat` runs in turn, and the peak memory."""
    times = [[], []]
    for _ in range(repeat):
        replies = []
        for at, program in enumerate(programs):
            reply, seconds = play(program, path)
            replies.append(reply)
            times[at].append(seconds)
        if replies[0] != replies[1] or not replies[0].startswith(b"age "):
            sys.exit(f"speed.py: the replies to {path} differ, or are no report")
    return [min(it) for it in times], [peak(program, path) for program in programs]


def machine_name():
    with open("/proc/cpuinfo", encoding="utf-8") as it:
        names = [line.partition(":")[2].strip() for line in it if line.startswith("model name")]
    return f"{names[0]}, {len(names)} processors, Linux {platform.release()}"


def compile_plain(room):
    to = f"{room}/plain"
    subprocess.run([*COMPILE, "-o", to, f"{HERE}/plain.c"], check=True)
    said = subprocess.run(["gcc", "--version"], capture_output=True, text=True, check=True).stdout
    print(f"plain: {' '.join(COMPILE)}, {said.splitlines()[0]}")
    return to


def write(path, file):
    with open(path, "wb") as it:
        it.write(file)


def table(programs, path, asked):
    print("| cells | side | n | strikes | beats | plain, ns | round, ns | ratio | plain, KiB | round, KiB |")
    print("|---|---|---|---|---|---|---|---|---|---|")
    for kind in BEATS:
        for side, planes in SHAPES:
            for is_struck in (False, True):
                if asked.rows not in f"{kind} {side} {planes} {'many' if is_struck else 'none'}":
                    continue
                file, strikes = round_file(kind, side, planes, is_struck)
                write(path, file)
                seconds, memory = measure(programs, path, asked.repeat or 5)
                plain, ours = (it * 1e9 / (planes * side * side * BEATS[kind]) for it in seconds)
                row = (kind, side, planes, strikes, BEATS[kind], f"{plain:.3f}", f"{ours:.3f}", f"{ours / plain:.2f}", *memory)
                print("|", " | ".join(map(str, row)), "|", flush=True)


def measure_long(programs, path, repeat):
    """The least time of `repeat` runs in turn, of the plain program by wounds and of `round`."""
    plain, ours = programs
    times = []
    for _ in range(repeat):
        by_wounds, seconds = play(plain, path, "--wounds")
        reply, our_seconds = play(ours, path)
        if by_wounds != reply or not reply.startswith(b"age "):
            sys.exit(f"speed.py: the replies to {path} differ, or are no report")
        times.append((seconds, our_seconds))
    return [min(it) for it in zip(*times)]


def long_table(programs, path, asked):
    print(f"Seconds of {MOST_BEATS} beats. Those of the dense mode are of {DENSE_BEATS} beats, scaled.")
    print()
    print("| cells | side | n | strikes | what | dense, s | wounds, s | round, s | round / wounds |")
    print("|---|---|---|---|---|---|---|---|---|")
    for kind in BEATS:
        for side, planes in SHAPES:
            for what in LONG:
                if asked.rows not in f"{kind} {side} {planes} {what}":
                    continue
                file, short, strikes = long_files(kind, side, planes, what)
                write(path, short)
                dense = play(programs[0], path)[1] * MOST_BEATS / DENSE_BEATS
                write(path, file)
                wounds, ours = measure_long(programs, path, asked.repeat or 1)
                row = (kind, side, planes, strikes, what, f"{dense:.1f}", f"{wounds:.3f}", f"{ours:.3f}", f"{ours / wounds:.2f}")
                print("|", " | ".join(map(str, row)), "|", flush=True)


def still_round(shape, what, lines, strikes, gap):
    """A round whose cells all stay what they are. Before the first beat so many lines of the last plane are struck, to which a look
    for wounds comes last; then, after every `gap` beats, one copy with what it is already. With gap 0 all strikes come at once."""
    kind, side, planes = shape
    rng = random.Random(f"{kind} {side} {planes} still")
    host = bytes([204]) if kind == "bits" else marching_machine(rng)
    cells = bytes(rng.randrange(2 if kind == "bits" else 16) for _ in range(planes))
    last = planes - 1
    struck = [(*LONG[what](side, k, j * side // lines), cells[last] ^ 1) for j in range(lines) for k in range(side)]
    again = (struck or [(0, 0, cells[last])])[0]
    records = [record(0, last, *it) for it in struck] + [record(gap * (at + 1), last, *again) for at in range(strikes)]
    return file_of(kind, side, planes, gap * (strikes + 1), host, cells, records)


def play_still(program, path, file, wounds):
    """The seconds of the round, if just so many copies differ from the line at its end."""
    write(path, file)
    reply, seconds = play(program, path)
    if not reply.startswith(b"age ") or b"\nhurt %d\n" % wounds not in reply:
        sys.exit(f"speed.py: not {wounds} wounds are left, or {program} wrote no report")
    return seconds


def beat_times(program, path, cases, repeat):
    """For each case the nanoseconds of a beat: the least time of `repeat` runs in turn, less that of the round without its beats."""
    files = [[still_round(*case, gap) for gap in (beats, 0)] for *case, beats in cases]
    least = [[float("inf")] * 2 for _ in cases]
    for _ in range(repeat):
        for at, (shape, _, lines, _, _) in enumerate(cases):
            seconds = [play_still(program, path, file, lines * shape[1]) for file in files[at]]
            least[at] = [min(pair) for pair in zip(least[at], seconds)]
    return [(full - bare) * 1e9 / ((strikes + 1) * gap) for (full, bare), (*_, strikes, gap) in zip(least, cases)]


def few(shape, start, beats=LONGEST_SPAN):
    """So many wounds are few for so many beats at once, or None where `round` looks for none: `most_wounds` of crates/plate/src/wounds.rt."""
    _, side, planes = shape
    left = planes * side * side - (LOOK * planes * side * side + PLANE * planes) // beats
    return left // (planes + start) if left >= 0 else None


def dense_lines(shape, start):
    """So many lines that their places are above the bound; where that can be, one less than all, so that antidiagonals move."""
    side = shape[1]
    return side - 1 if (side - 1) * side > few(shape, start) else side


def dense_beats(program, path, shape, start):
    """About how many dense beats take SECONDS."""
    trial = beat_times(program, path, [(shape, "row", dense_lines(shape, start), 0, TRIAL)], 1)
    return min(MOST_BEATS, int(SECONDS * 1e9 / trial[0]))


def few_lines(shape, start):
    """Numbers of lines whose places are not above the bound: one, about half as many as can be, and as many as can be."""
    most = few(shape, start) // shape[1]
    return sorted({1, (most + 1) // 2, most}) if most else []


def line_cases(shape, what, beats, start):
    """With no wounds, with few lines, and with so many that beats are dense."""
    few = [(shape, what, lines, 0, beats) for lines in few_lines(shape, start)]
    return [(shape, what, 0, 0, min(MOST_BEATS, 10 * beats)), *few, (shape, what, dense_lines(shape, start), 0, beats)]


def span_rows(shape, start):
    """Numbers of rows: none, one, as many as are not above the bound, and half of all, or just above the bound if half is not."""
    side, most = shape[1], few(shape, start) // shape[1]
    return sorted({0, 1, most, max(side // 2, most + 1)})


def span_cases(shape, beats, start):
    """Dense; then for each number of rows with a strike after every 2, 4 and so on, and with no strikes."""
    _, side, planes = shape
    cases = [(shape, "row", dense_lines(shape, start), 0, beats)]
    for lines in span_rows(shape, start):
        room = (LONGEST - 9 - LONGEST_HOST - planes) // 8 - lines * side
        cases += [*((shape, "row", lines, min(room, beats // gap), gap) for gap in GAPS), (shape, "row", lines, 0, beats)]
    return cases


def slope(points):
    """That of the straight line nearest to the points."""
    x, y = (sum(it) / len(points) for it in zip(*points))
    return sum((a - x) * (b - y) for a, b in points) / sum((a - x) ** 2 for a, _ in points)


def even_at(points, dense):
    """With how many wounds a beat by them takes as long as a dense one: between two points, or else by the straight line."""
    for (fewer, low), (more, high) in zip(points, points[1:]):
        if low <= dense <= high:
            return fewer + (more - fewer) * (dense - low) / (high - low)
    return (dense - points[0][1]) / slope(points)


def put_row(*items):
    print("|", " | ".join(map(str, items)), "|", flush=True)


def put_head(*items):
    put_row(*items)
    print("|---" * len(items) + "|")


def put_lines(shape, what, start, times):
    """What a line's row of the first table says."""
    _, side, planes = shape
    copies = planes * side * side
    none, *some, dense = times
    points = [(0, none), *((lines * side, it) for lines, it in zip(few_lines(shape, start), some))]
    said = ["-"] * 5
    if some:
        wound, even = slope(points), even_at(points, dense)
        cells = wound * copies / dense
        said = [", ".join(f"{wounds}: {it:.0f}" for wounds, it in points[1:]), f"{wound:.1f}", f"{cells:.0f}",
                f"{cells - planes:.0f}", f"{even:.0f}"]
    put_row(*shape, what, f"{dense:.0f}", f"{none:.0f}", *said, few(shape, start))


def put_spans(shape, start, times):
    """The rows of the second table for one shape."""
    dense, *times = times
    each = len(GAPS) + 1
    for at, lines in enumerate(span_rows(shape, start)):
        *spans, none = (it / dense for it in times[at * each:(at + 1) * each])
        wounds = lines * shape[1]
        looked = [few(shape, start, gap) for gap in GAPS]
        prices = [gap * (it - none) for gap, it, most in zip(GAPS, spans, looked) if most is not None and wounds <= most]
        price = f"{statistics.median(prices):.1f}" if prices else "-"
        put_row(*shape, wounds, *(f"{it:.2f}" for it in spans), f"{none:.3f}", price)


def crossing_plan(program, path, asked):
    """Shape, what is struck or `spans`, and the cases."""
    for shape in ((kind, *it) for kind in BEATS for it in CROSSING_SHAPES):
        whats = [it for it in (*LINES, "spans") if asked.rows in f"{' '.join(map(str, shape))} {it}"]
        beats = dense_beats(program, path, shape, asked.start) if whats else 0
        for what in whats:
            is_spans = what == "spans"
            yield shape, what, span_cases(shape, beats, asked.start) if is_spans else line_cases(shape, what, beats, asked.start)


def crossing_tables(program, path, asked):
    plan = list(crossing_plan(program, path, asked))
    times = iter(beat_times(program, path, [case for *_, cases in plan for case in cases], asked.repeat or 4))
    rows = [(shape, what, [next(times) for _ in cases]) for shape, what, cases in plan]
    print(f"Nanoseconds of a beat, with no strikes among them. START of `round` is taken to be {asked.start}.")
    print()
    put_head("cells", "side", "n", "lines", "dense", "no wounds", "wounds: beat", "one wound", "in cells", "START", "even at", "few")
    for shape, what, it in rows:
        if what != "spans":
            put_lines(shape, what, asked.start, it)
    print()
    print("A beat with a strike after every 2, 4 and so on, in dense beats. A span is the beats from one strike to the next. The")
    print("price of one by the wounds is what it takes beside its beats.")
    print()
    put_head("cells", "side", "n", "wounds", *GAPS, "no strikes", "price")
    for shape, what, it in rows:
        if what == "spans":
            put_spans(shape, asked.start, it)


def main():
    parser = argparse.ArgumentParser(usage=__doc__)
    parser.add_argument("--long", action="store_true")
    parser.add_argument("--round", default=f"{HERE}/../crates/round/out/round")
    parser.add_argument("--plain")
    parser.add_argument("--repeat", type=int)
    parser.add_argument("--rows", default="")
    parser.add_argument("--crossing", action="store_true")
    parser.add_argument("--start", type=int, default=124)
    asked = parser.parse_args()
    if not os.access(asked.round, os.X_OK):
        sys.exit(f"speed.py: {asked.round} is not built: run ./play once")
    with tempfile.TemporaryDirectory() as room:
        print(f"machine: {machine_name()}")
        if asked.crossing:
            print()
            crossing_tables(asked.round, f"{room}/it.round", asked)
            return
        programs = [asked.plain or compile_plain(room), asked.round]
        print()
        (long_table if asked.long else table)(programs, f"{room}/it.round", asked)


if __name__ == "__main__":
    main()
