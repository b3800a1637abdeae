#!/usr/bin/env python3
"""Tries the plate program on chosen, random and damaged inputs, whole or in pieces, beside what expected.py prints.

    try_inputs.py [--seed N] [--inputs N] COMMAND...   COMMAND runs the program; N at random after the chosen

It ends with 1 at an input of which the program prints something else, and where a line that the program can print was
never printed, or a line of the input that can be at fault never was. The seed settles all inputs and pieces.
"""

import argparse
import collections
import concurrent.futures
import os
import random
import subprocess
import sys

sys.dont_write_bytecode = True  # the folder of the scripts stays as it is
import expected  # noqa: E402

# Every line that the program can print, without the figures; of inputs at fault those that are too long apart.
PRINTED = ["PLATE A", "REFUSED A 12", "REFUSED A 13", "PLATE C"]
PRINTED += ["REFUSED C 11", "REFUSED C 12", "REFUSED C 14", "REFUSED C 15", "INPUT 2", "INPUT 3", "INPUT 2 0 0"]

# How many lines of the two parts of an input can be at fault, by the refusal: END has no number, and a 41st row is 2.
AT_FAULT = {("sheet", 2): 35, ("sheet", 3): 34, ("engines", 2): 41, ("engines", 3): 40}

# ---- an input as lines of fields; the first ten lines of a sheet stand always at the same places

FORM, STATIONS, VOL, MASS, PWR, SEAT = 1, range(2, 6), 6, 7, 8, 9
STATION = [(0, 4000)] + [(0, 2500)] * 6
SHEET = [
    (["HULL"], [(0, 15)]),
    (["FORM"], [(2000, 6000), (2000, 6000), (500, 3000), (200, 900), (0, 1), (0, 1)]),
    (["STN", "Q"], STATION),
    (["STN", "R"], STATION),
    (["STN", "S"], STATION),
    (["STN", "T"], STATION),
    (["VOL"], [(0, 5000000)] * 3),
    (["MASS"], [(1, 2000000), (0, 500000), (0, 500000)]),
    (["PWR"], [(0, 1), (0, 200000)]),
    (["SEAT"], [(1, 24), (1, 24)]),
]
FIT_LINE, FIT_WEIGHT, FIT_COUNT, ROW_POWER, ROW_WEIGHT = (1, 24), (1, 500000), (1, 99), (1, 200000), (0, 1000000)
MOST_GRAMS = 500000  # of all pieces on a FIT line


def sheet_lines(choose):
    """The lines HULL to SEAT, each number chosen by its limits."""
    lines = [tags + [choose(low, high) for low, high in limits] for tags, limits in SHEET]
    lines[FORM][2] = min(lines[FORM][1:3])
    return lines


def fit_lines(fits):
    """FIT lines, each with a weight alone or with a count after it, and END."""
    return [["FIT", line, *numbers] for line, numbers in sorted(fits.items())] + [["END"]]


def engine_lines(rows):
    return [["ENG", power, weight] for power, weight in rows]


def text(lines):
    return "".join("\t".join(map(str, line)) + "\n" for line in lines).encode("ascii")


# ---- chosen inputs

# Lengths and widths at the ends of the power table, and where a formula gives whole steps of 5000 watts or just more.
ROW_ENDS = [(2250, 1000), (3300, 1000), (3600, 1000), (3900, 1000), (4253, 917), (4200, 1000), (4000, 1250), (5000, 1000)]
STEPS = [(5001, 1000), (5071, 986), (4100, 2500), (4443, 2307), (5000, 2000), (5071, 1972), (4250, 1500), (5881, 1084)]


def sample():
    """The sheet of document 01 with a second fitting, which has a count, and its engine lines."""
    box = [1000] + [500] * 6
    form = [4500, 4000, 1200, 500, 0, 1]
    rows = [[0], form, box, box, box, box, [0, 0, 0], [200000, 0, 0], [1, 20000], [5, 3]]
    lines = [tags + numbers for (tags, _), numbers in zip(SHEET, rows)]
    return lines + fit_lines({1: [3334], 24: [50, 10]}) + engine_lines([(10000, 45000), (20000, 60000)])


def with_fields(line, field, *fields):
    """The sample with other fields from a place on."""
    lines = sample()
    lines[line][field : field + len(fields)] = fields
    return text(lines)


def beside_limits():
    """Every number just outside its limits; so too with broken form after it, which is then not the first fault."""
    fit, end = len(SHEET), len(SHEET) + 2
    places = [(i, len(tags) + j, limits) for i, (tags, row) in enumerate(SHEET) for j, limits in enumerate(row)]
    places += [(fit, 1, FIT_LINE), (fit, 2, FIT_WEIGHT), (fit + 1, 1, FIT_LINE), (fit + 1, 2, FIT_WEIGHT)]
    places += [(fit + 1, 3, FIT_COUNT)]
    places += [(end + 1, 1, (1, 19999)), (end + 1, 2, ROW_WEIGHT), (end + 2, 1, ROW_POWER), (end + 2, 2, ROW_WEIGHT)]
    for line, field, (low, high) in places:
        for number in [high + 1] + [low - 1] * (low > 0):
            yield with_fields(line, field, number)
            if field + 1 < len(sample()[line]):
                yield with_fields(line, field, number, "x")


def odd_numbers():
    for number in ("", "00", "01", "-", "+1", "9999999999", "10000000000", "4294967296", "18446744073709551617"):
        yield with_fields(MASS, 2, number)
        yield with_fields(len(SHEET), 2, number)
        yield with_fields(len(SHEET) + 1, 3, number)


def at_products():
    """As much as all pieces of a line may weigh, with each a gram lighter and heavier too; so too with broken form at
    the count and after it."""
    for count in (1, 2, 3, 7, 98, 99):
        for weight in (MOST_GRAMS // count + more for more in (-1, 0, 1)):
            for ending in ([count], ["%dx" % count], [count, ""]):
                yield with_fields(len(SHEET) + 1, 2, weight, *ending)
    for count in (0, 1, 99, 100):
        for weight in (0, 1, 500000, 500001):
            yield with_fields(len(SHEET) + 1, 2, weight, count)
    yield with_fields(len(SHEET) + 1, 2, 65536, 65536)  # 0 in 32 bits


def at_limits():
    """Every number at its lowest, and at its highest; as many FIT and ENG lines as there may be, and one more."""
    for choose in (min, max):
        for lines, count in ((0, 1), (24, 40), (24, 41), (25, 40), (24, 0)):
            rows = [(choose(1, 200001 - count) + i, choose(ROW_WEIGHT)) for i in range(count)]
            for numbers in ([choose(FIT_WEIGHT)], [choose(FIT_WEIGHT), 1], [MOST_GRAMS // 99, 99], [1, choose(FIT_COUNT)]):
                fits = {line: numbers for line in range(1, lines + 1)}
                yield text(sheet_lines(choose) + fit_lines(fits) + engine_lines(rows))


def at_powers():
    for length, width in ROW_ENDS + STEPS:
        for flat in (0, 1):
            for remote, height in ((0, 500), (1, 499), (1, 500)):
                yield with_fields(FORM, 1, length, 2000, width, height, flat, remote)


def at_live_loads():
    """The sample's load of 325 kg with engines that leave persons, or the want of a test, to hang on a gram."""
    for tested in ("-", 4):
        for bound in (75000, 150000, 225000, 250000, 300000):
            for live in (bound - 1, bound):
                lines = sample()
                lines[SEAT][2] = tested
                lines[-1][2] = 325000 - live
                yield text(lines)


def filled(data, size):
    return data + b"x" * (size - len(data) - 1) + b"\n"


def at_sizes():
    """Texts and inputs of 4,096 and 8,192 bytes and beside, the first fault of which is a number outside its limits."""
    outside, whole = b"HULL\t16\n", text(sample())
    sheet = whole[: whole.index(b"END\n") + len(b"END\n")]
    for more in (-1, 0, 1):
        yield filled(outside, 4096 + more)
        yield filled(outside + b"END\n", 8192 + more)
        yield filled(sheet + b"ENG\t0\t1\n", len(sheet) + 4096 + more)


def every_line():
    """The fullest input with each line broken at its end, left out with all after it, not ended, or its number too high."""
    fits = {line: [1] if line % 2 else [1, 1] for line in range(1, 25)}
    lines = sheet_lines(max) + fit_lines(fits) + engine_lines([(power, 0) for power in range(1, 41)])
    for at, line in enumerate(lines):
        yield text(lines[:at] + [line[:-1] + ["%sx" % line[-1]]] + lines[at + 1 :])
        yield text(lines[:at])
        yield text(lines[: at + 1])[:-1]
        numbers = [field for field, value in enumerate(line) if isinstance(value, int)]
        for field in numbers[:1]:
            yield text(lines[:at] + [line[:field] + [9999999999] + line[field + 1 :]] + lines[at + 1 :])
    yield text(lines + [["ENG", 41, 0]])


def ill_typed():
    """What an editor or a hurried hand may do to the sample."""
    whole = text(sample())
    yield from (b"\xef\xbb\xbf" + whole, b" " + whole, b"\n" + whole, whole + b"\n", whole + b"\x1a", whole[:-1])
    yield from (whole.replace(b"\n", b"\r\n"), whole.replace(b"\n", b"\r"), whole.replace(b"\t", b" "), whole.lower())
    yield from (whole.replace(b"\n", b" \n"), whole.replace(b"\n", b"\t\n"), whole.replace(b"END\n", b""))
    yield from (with_fields(SEAT, 2, tested) for tested in ("-1", "0", "", "--", "- ", "3.", "12345678901"))


def chosen():
    yield text(sample())
    for inputs in (beside_limits, odd_numbers, at_products, at_limits, at_powers):
        yield from inputs()
    for inputs in (at_live_loads, at_sizes, every_line, ill_typed):
        yield from inputs()


# ---- random inputs


def at_a_limit(rng, low, high):
    return rng.choice([low, high, min(low + 1, high), max(high - 1, low), rng.randint(low, high)])


def set_boat(rng, lines):
    """Numbers that a small boat may have, so that plates can be made of it."""
    length, width = rng.choice(ROW_ENDS + STEPS + [(rng.randint(2000, 6000), rng.randint(500, 1800))] * 8)
    lines[FORM][1:5] = length, rng.randint(2000, length), width, rng.choice([499, 500, rng.randint(200, 900)])
    for station in STATIONS:
        lines[station][2:] = [rng.randint(400, 1600)] + [rng.randint(150, 650) for _ in range(6)]
    lines[VOL][1:] = [rng.choice([0, rng.randint(0, most)]) for most in (300000, 90000, 250000)]
    lines[MASS][1:] = [rng.randint(1, most) for most in (300000, 90000, 60000)]
    lines[PWR][2] = rng.choice([0, 1, 1499, 1500, 1501] + [rng.randint(0, 60000)] * 5)


def random_pieces(rng):
    """A weight alone, or with a count; now and then as much as a line may weigh."""
    count = rng.choice([1, 1, rng.randint(1, 99)])
    most = MOST_GRAMS // count
    weight = rng.choice([most, most - 1] + [rng.randint(1, 12000 // count)] * 80)
    return [weight, count] if count > 1 or rng.random() < 0.5 else [weight]


def random_fits(rng):
    lines = rng.sample(range(1, 25), rng.choice([0, 0, 1, 2, 5, 24]))
    return {line: random_pieces(rng) for line in lines}


def random_rows(rng, declared):
    """Rows of which one is at the declared power or right beside it."""
    powers = set(rng.sample(range(1, 200001), rng.choice([0, 1, 2, 9, 39])))
    powers.add(min(max(declared + rng.randint(-1, 1), 1), 200000))
    return [(power, rng.choice([0, rng.randint(0, 120000), rng.randint(0, 400000)])) for power in sorted(powers)]


def aim_load(rng, lines, fits):
    """A bare boat of which a load of plate A or C is at a bound, to a gram or two."""
    sheet = expected.Sheet(text(lines + fit_lines(fits)))
    aboard = (sheet.fuel + sheet.machinery) * rng.choice([1, 1, 5])
    steps = rng.choice([0, 1, 2, 3, 150, 152, rng.randint(1, 800)])
    load = 2500 * steps if sheet.declared > 1500 or rng.random() < 0.5 else 10000 * steps // 3
    bare = int(sheet.water()) - sum(sheet.fittings) - aboard - load + rng.randint(-1, 2)
    lines[MASS][1] = min(max(bare, 1), 2000000)


def aim_live_load(rng, lines, fits, rows):
    """Engines of which the live load of plate C is at a bound, to a gram."""
    sheet = expected.Sheet(text(lines + fit_lines(fits)))
    left = int(sheet.water()) - sheet.boat() - sheet.fuel - sheet.machinery
    load = left // 5000 if sheet.declared > 1500 else 3 * left // 10000
    weight = 1000 * load - rng.choice([0, 75000, 150000, 225000, 250000, 250000, 250000]) + rng.randint(-1, 1)
    if 0 <= weight <= 1000000:
        rows[:] = [(power, weight) for power, _ in rows]


def random_lines(rng):
    near = rng.random() < 0.1
    lines = sheet_lines(lambda low, high: at_a_limit(rng, low, high) if near else rng.randint(low, high))
    if not near:
        set_boat(rng, lines)
    if rng.random() < 0.4:
        lines[SEAT][2] = "-"
    fits = random_fits(rng)
    if rng.random() < 0.4:
        aim_load(rng, lines, fits)
    rows = random_rows(rng, lines[PWR][2])
    if rng.random() < 0.6:
        aim_live_load(rng, lines, fits, rows)
    return lines + fit_lines(fits) + engine_lines(rows)


# ---- damage

ODD_FIELDS = ["", "0", "00", "01", "-", "--", "-1", "+1", " 1", "1 ", "25", "6001", "x", "1\r"]
ODD_FIELDS += ["9999999999", "10000000000"]
ODD_BYTES = [b"\t", b"\n", b"\r\n", b"0", b"9", b"-", b" ", b"/", b":", b"\0", b"\x7f", b"\xff", b"END\n", b"\nEND\n"]


def damage_lines(rng, lines):
    """A line dropped, doubled, moved or changed for another, END more often; a number one off, or an odd field."""
    ends = [i for i, line in enumerate(lines) if line == ["END"]]
    at, to = rng.choice([rng.randrange(len(lines))] * 2 + ends), rng.randrange(len(lines))
    kind = rng.randrange(6)
    if kind == 0:
        del lines[at]
    elif kind == 1:
        lines.insert(to, lines[at])
    elif kind == 2:
        lines.insert(to, lines.pop(at))
    elif kind == 3:
        lines[at], lines[to] = lines[to], lines[at]
    else:
        field = rng.randrange(len(lines[to]))
        is_number = isinstance(lines[to][field], int) and lines[to][field] > 0
        lines[to][field] = lines[to][field] + rng.choice([-1, 1]) if is_number and kind == 4 else rng.choice(ODD_FIELDS)


def damaged(rng, data):
    """A byte flipped, dropped, doubled or put in between; the text cut off, or filled up to a bound and beside it."""
    at = rng.randrange(len(data) + 1)
    changes = [
        lambda: data[:at] + bytes(byte ^ 1 << rng.randrange(8) for byte in data[at : at + 1]) + data[at + 1 :],
        lambda: data[:at] + data[at + 1 :],
        lambda: data[: at + 1] + data[at:],
        lambda: data[:at] + rng.choice(ODD_BYTES) + data[at:],
        lambda: data[:at],
        lambda: filled(data, rng.choice([4096, 8192, 12000]) + rng.randint(-1, 1)),
    ]
    return rng.choice(changes)()


def random_input(rng):
    lines = random_lines(rng)
    harm = rng.random()
    if harm < 0.2:
        damage_lines(rng, lines)
    data = text(lines)
    if 0.15 < harm < 0.35:
        data = damaged(rng, data)
    return data if harm < 0.99 else rng.randbytes(rng.randint(0, 9000))


# ---- the program


def pieces(rng, data):
    """The bytes whole, or cut at random, into sixty pieces at most."""
    count = min(rng.choice([0, 0, 0, 1, 5, 59]), max(len(data) - 1, 0))
    cuts = [0] + sorted(rng.sample(range(1, len(data)), count)) + [len(data)] if data else []
    return [data[start:end] for start, end in zip(cuts, cuts[1:])]


def said_of(command, parts):
    """What the program says of an input, on both outputs. Through such a pipe each part comes as a read of its own."""
    out, into = os.pipe2(os.O_DIRECT | os.O_CLOEXEC)
    with subprocess.Popen(command, stdin=out, stdout=subprocess.PIPE, stderr=subprocess.STDOUT) as process:
        os.close(out)
        try:
            for part in parts:
                os.write(into, part)
        except BrokenPipeError:
            return "(the writer was cut off)"
        finally:
            os.close(into)
        said = process.stdout.read().decode("ascii", "backslashreplace")
    return said + "(ended with %d)" % process.returncode if process.returncode else said


def difference(command, data, parts):
    """A report where the program says something else of an input than expected.py."""
    said, want = said_of(command, parts), expected.printed(data)
    if said == want:
        return None
    sizes = " ".join(str(len(part)) for part in parts)
    return "%r, in pieces of %s bytes: printed %r, worked out %r" % (data, sizes, said, want)


def first_difference(command, inputs, cut):
    with concurrent.futures.ThreadPoolExecutor(os.cpu_count()) as hands:
        reports = hands.map(lambda data, parts: difference(command, data, parts), inputs, cut)
        for number, report in enumerate(reports):
            if report:
                hands.shutdown(cancel_futures=True)
                return "input %d: %s" % (number, report)
    return None


def kinds(printed):
    """The lines that were printed, without the figures."""
    for line in printed.splitlines():
        fields = line.split("\t")
        placed = fields[0] == "INPUT" and fields[2:] != ["0", "0"]
        yield " ".join(fields[:2] if placed or fields[0] == "PLATE" else fields)


def part_at_fault(data):
    try:
        expected.Sheet(expected.split(data)[0])
    except expected.Refused:
        return "sheet"
    return "engines"


def lines_at_fault(inputs):
    """How many lines of the inputs were at fault, by the part that they are of and by the refusal."""
    met = {fault: set() for fault in AT_FAULT}
    for data in inputs:
        word, *figures = expected.printed(data).splitlines()[0].split("\t")
        if word == "INPUT" and figures[1:] != ["0", "0"]:
            number, line = map(int, figures[:2])
            met[part_at_fault(data), number].add(line)
    return {fault: len(lines) for fault, lines in met.items()}


def main():
    parser = argparse.ArgumentParser(description="Tries the plate program on inputs that expected.py works out too.")
    parser.add_argument("--seed", type=int, default=1799)
    parser.add_argument("--inputs", type=int, default=400)
    parser.add_argument("command", nargs=argparse.REMAINDER)
    given = parser.parse_args()
    if not given.command:
        parser.error("a COMMAND that runs the program is wanted")
    rng = random.Random(given.seed)
    inputs = list(chosen()) + [random_input(rng) for _ in range(given.inputs)]
    report = first_difference(given.command, inputs, [pieces(rng, data) for data in inputs])
    if report:
        print("test-program: seed %d, %s" % (given.seed, report), file=sys.stderr)
        return 1
    seen = collections.Counter(kind for data in inputs for kind in kinds(expected.printed(data)))
    print("test-program: printed " + ", ".join("%s: %d" % (kind, seen[kind]) for kind in PRINTED))
    if set(seen) != set(PRINTED):
        print("test-program: not the lines that there are: %s" % ", ".join(set(seen) ^ set(PRINTED)), file=sys.stderr)
        return 1
    at_fault = lines_at_fault(inputs)
    told = ("%s with %d: %d of %d" % (*fault, at_fault[fault], most) for fault, most in AT_FAULT.items())
    print("test-program: lines at fault, " + ", ".join(told))
    if at_fault != AT_FAULT:
        print("test-program: a line that can be at fault never was", file=sys.stderr)
        return 1
    print("test-program: the plate program printed what it should of %d inputs" % len(inputs))
    return 0


if __name__ == "__main__":
    sys.exit(main())
