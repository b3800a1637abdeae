#!/usr/bin/env python3
"""What the plate program is to print, and plate U, which it does not print, worked out by a second hand.

    expected.py [FILE]     prints what the plate program prints of FILE, or of standard input
    expected.py --u DIR    prints plate U of every NAME.sheet of DIR whose sheet is accepted, a line each
    expected.py --all DIR  works out every NAME.sheet of DIR again and holds NAME.expected and plates-u.expected to it

It is written from documents 01 and 02 and shares nothing with the crates. Areas, volumes and loads are worked as
fractions in the order the standards give them, where the crates keep whole sums and divide once: the two agree only if
both are exact. A text is cut at its line feeds, and the place of a fault is how far the line can be the beginning of a
right one, where the crates count bytes from the text's start.
"""

import glob
import math
import os
import re
import sys
from fractions import Fraction

BROKEN, OUTSIDE = 2, 3
MOST_INPUT, MOST_TEXT = 8192, 4096
MOST_FITS, MOST_ROWS = 24, 40

NUMBER = rb"(0|[1-9][0-9]{0,9})"
NUMBER_OR_DASH = rb"(0|[1-9][0-9]{0,9}|-)"
EITHER = rb"[\t\n]"  # what ends a number after which the line may end


def not_above_the_one_before(numbers):
    """In place of a highest number, by those before it on the line."""
    return numbers[-1]


def as_many_as_may_weigh(numbers):
    """Pieces of the weight before: 99, or fewer where so many would weigh more than 500000 g."""
    return min(99, 500000 // numbers[-1])


class Refused(Exception):
    """A refusal by its number; of a text with the line and the byte in it, 0 and 0 where the text is too long."""

    def __init__(self, number, *place):
        super().__init__(number, *place)
        self.figures = (number, *place)


def beginning(parts):
    """A pattern of everything that a line of these parts can begin with; it takes as much as it can."""
    pattern = b""
    for part in reversed(parts):
        pattern = b"(?:" + part + pattern + b")?"
    return re.compile(pattern)


class Text:
    """A text, a line after the other. After the last line feed comes a line without one, which is to be empty."""

    def __init__(self, data):
        if len(data) > MOST_TEXT:
            raise Refused(BROKEN, 0, 0)
        *ended, rest = data.split(b"\n")
        self.lines = [line + b"\n" for line in ended] + [rest]
        self.passed = 0

    def starts(self, tag):
        return self.lines[self.passed].startswith(tag)

    def ended(self):
        return self.lines[self.passed :] == [b""]

    def refuse(self, number, at):
        raise Refused(number, self.passed + 1, at + 1)

    def line(self, tag, *limits, last=NUMBER, optional=False):
        """The numbers of the next line; where the last is optional, it may be missing. Each that its tab or line feed
        ends is judged by its limits, then the form."""
        parts = [bytes([byte]) for byte in tag]
        for _ in limits:
            parts += [NUMBER, b"\t"]
        if limits:
            parts[-2:] = [last, b"\n"]
        if optional:
            parts[-3] = EITHER
        right, numbers = beginning(parts).match(self.lines[self.passed]), []
        for field, (low, high) in enumerate(limits, 1):
            if right[field] is None or right.end(field) == right.end():
                break
            number = None if right[field] == b"-" else int(right[field])
            most = high(numbers) if callable(high) else high
            if number is not None and not low <= number <= most:
                self.refuse(OUTSIDE, right.start(field))
            numbers.append(number)
        if not right[0].endswith(b"\n"):
            self.refuse(BROKEN, right.end())
        self.passed += 1
        return numbers


class Sheet:
    """A sheet, read from its text; the HULL number plays no part in the plates."""

    def __init__(self, data):
        text = Text(data)
        text.line(b"HULL\t", (0, 15))
        lengths, transom = [(2000, 6000), (2000, not_above_the_one_before)], [(500, 3000), (200, 900)]
        form = text.line(b"FORM\t", *lengths, *transom, (0, 1), (0, 1))
        self.length, self.reference, self.width, self.height, self.flat, self.remote = form
        station = [(0, 4000)] + [(0, 2500)] * 6
        self.stations = [text.line(b"STN\t" + letter + b"\t", *station) for letter in (b"Q", b"R", b"S", b"T")]
        self.aft, self.well, self.flooding = text.line(b"VOL\t", *[(0, 5000000)] * 3)
        self.bare, self.fuel, self.machinery = text.line(b"MASS\t", (1, 2000000), (0, 500000), (0, 500000))
        self.outboard, self.declared = text.line(b"PWR\t", (0, 1), (0, 200000))
        self.positions, self.tested = text.line(b"SEAT\t", (1, 24), (1, 24), last=NUMBER_OR_DASH)
        self.fittings, last = [], 0
        while text.starts(b"F") and len(self.fittings) < MOST_FITS:
            limits = [(last + 1, 24), (1, 500000), (1, as_many_as_may_weigh)]
            last, weight, count = (text.line(b"FIT\t", *limits, optional=True) + [1])[:3]
            self.fittings.append(weight * count)
        text.line(b"END\n")
        if not text.ended():
            text.refuse(BROKEN, 0)

    def water(self):
        """Grams of water that the hull holds, exactly."""
        products = [b * (q + 4 * r + 2 * s + 4 * t + 2 * u + 2 * v) for b, q, r, s, t, u, v in self.stations]
        areas = [Fraction(p, 15) for p in products]
        cubic_mm = Fraction(self.reference, 12) * sum(k * a for k, a in zip((4, 2, 4, 1), areas))
        return cubic_mm / 1000 + self.aft - self.well - self.flooding

    def boat(self):
        return self.bare + sum(self.fittings)


def engine_rows(data):
    text, rows, last = Text(data), [], 0
    while not rows or not text.ended():
        if len(rows) == MOST_ROWS:
            text.refuse(BROKEN, 0)
        last, weight = text.line(b"ENG\t", (last + 1, 200000), (0, 1000000))
        rows.append((last, weight))
    return rows


POWERS = [(2250000, 1500), (3300000, 3000), (3600000, 4000), (3900000, 5250), (4200000, 7500), (5000000, 12000)]


def power(sheet):
    """Watts by plate A, or none where a flat bottom stands in the first row."""
    if not sheet.outboard:
        return 0
    factor = sheet.length * sheet.width
    if factor <= POWERS[-1][0]:
        row = next(i for i, (most, _) in enumerate(POWERS) if factor <= most)
        if sheet.flat:
            row -= 1
        return POWERS[row][1] if row >= 0 else None
    thousands = Fraction(factor, 1000)
    if sheet.remote and sheet.height >= 500:
        watts = 16 * thousands - 67000
    elif sheet.flat:
        watts = 4 * thousands - 11000
    else:
        watts = Fraction(13, 2) * thousands - 20000
    return 5000 * math.ceil(watts / 5000)


def plate_a(sheet):
    aboard = sheet.fuel + sheet.machinery
    if sheet.outboard:
        grams = (sheet.water() - sheet.boat() - aboard) / 5
    else:
        grams = (sheet.water() - sheet.boat()) / 5 - aboard
    load = math.floor(grams / 1000 + Fraction(1, 2))
    if load < 1:
        raise Refused(12)
    watts = power(sheet)
    if watts is None:
        raise Refused(13)
    return load, watts


def plate_c(sheet, rows):
    left = sheet.water() - sheet.boat() - sheet.fuel - sheet.machinery
    share = Fraction(1, 5) if sheet.declared > 1500 else Fraction(3, 10)
    load = math.floor(left * share / 1000)
    if load < 1:
        raise Refused(12)
    engine = 0
    if sheet.outboard and sheet.declared > 0:
        engine = next((weight for watts, weight in rows if watts >= sheet.declared), None)
        if engine is None:
            raise Refused(11)
    live = 1000 * load - engine
    if live < 250000 and sheet.tested is None:
        raise Refused(14)
    persons = min(sheet.positions, live // 75000)
    if sheet.tested is not None:
        persons = min(persons, sheet.tested)
    if persons < 1:
        raise Refused(15)
    return load, persons


POUND = Fraction(45359237, 100000)  # grams
TWO_HORSEPOWER = 1491  # watts, the last whole one


def plate_u(sheet):
    """Pounds by 33 CFR 183.37, 183.35 and 183.33, in that order."""
    if sheet.outboard and sheet.declared <= TWO_HORSEPOWER:
        grams = Fraction(3, 10) * (sheet.water() - sheet.boat())
    else:
        displacement, boat = sheet.water(), sheet.boat() + sheet.fuel
        grams = (displacement - boat) / 5
        if not sheet.outboard:
            grams = max(grams - Fraction(4, 5) * sheet.machinery, (displacement - boat) / 7)
    pounds = math.floor(grams / POUND)
    if pounds < 1:
        raise Refused(12)
    return (pounds,)


def split(data):
    """The sheet, through the first line that is END alone, and the engine lines after it."""
    end = re.search(rb"^END\n", data, re.MULTILINE)
    at = end.end() if end else len(data)
    return data[:at], data[at:]


def line(*words):
    return "\t".join(map(str, words)) + "\n"


def plate_line(letter, plate, *given):
    try:
        return line("PLATE", letter, *plate(*given))
    except Refused as refusal:
        return line("REFUSED", letter, *refusal.figures)


def printed(data):
    try:
        if len(data) > MOST_INPUT:
            raise Refused(BROKEN, 0, 0)
        first, rest = split(data)
        sheet = Sheet(first)
        rows = engine_rows(rest)
    except Refused as refusal:
        return line("INPUT", *refusal.figures)
    return plate_line("A", plate_a, sheet) + plate_line("C", plate_c, sheet, rows)


def sheets(folder):
    """The name of each sheet without its ending, and its bytes."""
    for path in sorted(glob.glob(os.path.join(folder, "*.sheet"))):
        with open(path, "rb") as f:
            yield path[: -len(".sheet")], f.read()


def plates_u(folder):
    lines = []
    for name, data in sheets(folder):
        try:
            sheet = Sheet(split(data)[0])
        except Refused:
            continue
        lines.append(os.path.basename(name) + "\t" + plate_line("U", plate_u, sheet))
    return "".join(sorted(lines))


def check(path, want):
    with open(path, encoding="ascii") as f:
        stored = f.read()
    if stored != want:
        print("%s: stored %r, worked out %r" % (path, stored, want), file=sys.stderr)
    return stored != want


def check_all(folder):
    wrong = [check(name + ".expected", printed(data)) for name, data in sheets(folder)]
    wrong.append(check(os.path.join(folder, "plates-u.expected"), plates_u(folder)))
    return int(any(wrong))


def main(words):
    if words[:1] == ["--all"] and len(words) == 2:
        return check_all(words[1])
    if words[:1] == ["--u"] and len(words) == 2:
        sys.stdout.write(plates_u(words[1]))
        return 0
    if len(words) > 1:
        print(__doc__, file=sys.stderr)
        return 2
    if words:
        with open(words[0], "rb") as f:
            data = f.read()
    else:
        data = sys.stdin.buffer.read()
    sys.stdout.write(printed(data))
    return 0


if __name__ == "__main__":
    sys.exit(main(sys.argv[1:]))
