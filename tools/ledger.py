"""A vault's ledger, apart from our code: reads a script and prints its transcript.

It keeps the file and which boxes are out, and no boxes: each answer is worked
out from the file. The format is that of docs/SCRIPT.md, the rest is as docs/
has it: CODE.md (blocks, parities, halves), FIELDS.md (fields, marks), CALLS.md
and REFUSALS.md (calls, and why they are declined).

  python3 tools/ledger.py < script
  python3 tools/ledger.py SCRIPT..

Scripts may be given by the names of their files, a hyphen for the standard
input; each transcript is then printed behind its script's name.
"""
import re
import sys

MOST_BYTES = 16384
MOST_COMMANDS = 64
MOST_SYMBOLS = 1152


# Fields: symbols are their numbers.

class Prime:
    """The integers modulo a prime."""

    def __init__(self, size, marks):
        self.size = size
        self.marks = marks

    def plus(self, x, y):
        return (x + y) % self.size

    def minus(self, x, y):
        return (x - y) % self.size

    def times(self, x, y):
        return x * y % self.size


class Binary:
    """Polynomials over two elements modulo one, as the bits of a number."""

    def __init__(self, modulus, marks):
        self.degree = modulus.bit_length() - 1
        self.size = 1 << self.degree
        self.modulus = modulus
        self.marks = marks

    def plus(self, x, y):
        return x ^ y

    minus = plus

    def times(self, x, y):
        product = 0
        for k in range(self.degree):
            if y >> k & 1:
                product ^= x << k
        for k in reversed(range(self.degree - 1)):
            if product >> k + self.degree & 1:
                product ^= self.modulus << k
        return product


# Each field by its letter in a script; marks are listed from mark 1 on.
FIELDS = {
    "f": Prime(5, [1, 4, 2, 3]),
    "q": Binary(0b111, [3, 2, 1]),
    "b": Binary(0x11B, range(1, 256)),
    "w": Prime(65537, range(1, 65537)),
}


# The code.

class Cabinet:
    """A size m over a field. Boxes go by their numbers, from 1, and rows from 0."""

    def __init__(self, field, m):
        self.field = field
        self.m = m
        self.data_boxes = 3 * m
        self.boxes = 3 * m + 2
        self.rows = 2 ** m
        self.symbols = self.data_boxes * self.rows

    def kind_and_direction(self, number):
        kind, direction = divmod(number - 1, self.m)
        return kind, direction + 1

    def pairs(self, direction):
        """The rows of each pair of a direction: digit 1 is the highest of m."""
        bit = 1 << self.m - direction
        return [(row, row | bit) for row in range(self.rows) if not row & bit]

    def block(self, kind, direction, s, t):
        """What a block makes of the symbols of a pair."""
        f = self.field
        p, q = f.marks[2 * direction - 2], f.marks[2 * direction - 1]
        if kind == 0:
            return f.plus(f.times(q, s), f.times(f.minus(q, p), t)), f.times(p, t)
        if kind == 1:
            return f.times(q, s), f.plus(f.times(f.minus(p, q), s), f.times(p, t))
        return f.times(p, s), f.times(q, t)

    def image(self, number, column):
        kind, direction = self.kind_and_direction(number)
        image = [0] * self.rows
        for lower, upper in self.pairs(direction):
            image[lower], image[upper] = self.block(kind, direction, column[lower], column[upper])
        return image

    def total(self, columns):
        total = [0] * self.rows
        for column in columns:
            total = [self.field.plus(x, y) for x, y in zip(total, column)]
        return total

    def column(self, file, number):
        """The column of any box of a file."""
        data = [file[at:at + self.rows] for at in range(0, self.symbols, self.rows)]
        if number <= self.data_boxes:
            return data[number - 1]
        if number == self.data_boxes + 1:
            return self.total(data)
        return self.total(self.image(b, column) for b, column in enumerate(data, 1))

    def half(self, lost, column):
        """The half of a column for a lost data box."""
        kind, direction = self.kind_and_direction(lost)
        pairs = [(column[lower], column[upper]) for lower, upper in self.pairs(direction)]
        if kind == 0:
            return [s for s, _ in pairs]
        if kind == 1:
            return [t for _, t in pairs]
        return [self.field.plus(s, t) for s, t in pairs]


# The calls.

class Refused(Exception):
    """A call is declined, by this number."""


def refuse_if(fits, number):
    if fits:
        raise Refused(number)


class Ledger:
    """Answers the calls; each answer is a list of numbers, empty where it is done."""

    def __init__(self, field, m):
        """Nothing is set up over the shelf that is made for m."""
        self.field = field
        self.m = m
        self.cabinet = None

    def set_up(self):
        refuse_if(not 1 <= self.m <= 6, 2)
        refuse_if(len(self.field.marks) < 2 * self.m, 3)
        # the shelf has the boxes and rows that m asks for, so 4 does not come
        self.cabinet = Cabinet(self.field, self.m)
        self.file = [0] * self.cabinet.symbols
        self.out = set()
        return []

    # what several calls are declined by

    def want_set_up(self):
        refuse_if(self.cabinet is None, 1)

    def want_box(self, *numbers):
        refuse_if(any(not 1 <= b <= self.cabinet.boxes for b in numbers), 6)

    def want_standing(self, number):
        refuse_if(number in self.out, 8)

    def want_few_out(self):
        refuse_if(len(self.out) > 2, 10)

    def want_data_box(self, number):
        refuse_if(number > self.cabinet.data_boxes, 11)

    # the calls, each by its letter

    def P(self, *symbols):
        self.want_set_up()
        refuse_if(len(symbols) != self.cabinet.symbols, 5)
        self.want_few_out()
        self.file = list(symbols)
        return []

    def A(self, number, row, symbol):
        self.want_set_up()
        refuse_if(not 1 <= number <= self.cabinet.data_boxes, 6)
        refuse_if(row >= self.cabinet.rows, 7)
        self.want_few_out()
        self.file[(number - 1) * self.cabinet.rows + row] = symbol
        return []

    def R(self):
        self.want_set_up()
        self.want_few_out()
        return self.file

    def C(self, number):
        self.want_set_up()
        self.want_box(number)
        self.want_standing(number)
        return self.cabinet.column(self.file, number)

    def M(self, helper, lost):
        self.want_set_up()
        self.want_box(helper, lost)
        self.want_standing(helper)
        self.want_data_box(lost)
        refuse_if(helper == lost, 12)
        return self.cabinet.half(lost, self.cabinet.column(self.file, helper))

    def L(self, number):
        self.want_set_up()
        self.want_box(number)
        self.want_standing(number)
        self.out.add(number)
        return []

    def N(self, number):
        self.want_set_up()
        self.want_box(number)
        refuse_if(number not in self.out, 9)
        self.want_few_out()
        self.want_data_box(number)
        refuse_if(len(self.out) > 1, 11)
        self.out.remove(number)
        return [(self.cabinet.boxes - 1) * self.cabinet.rows // 2]

    def B(self):
        self.want_set_up()
        self.want_few_out()
        count = len(self.out)
        self.out = set()
        return [count]


# Scripts.

class Broken(Exception):
    """The text is no script."""


def want(holds):
    if not holds:
        raise Broken


# How many numbers each command takes; None: any count.
TAKES = {"P": None, "A": 3, "R": 0, "C": 1, "M": 2, "L": 1, "N": 1, "B": 0}


def number(word):
    want(re.fullmatch(rb"0|[1-9][0-9]{0,8}", word))
    return int(word)


def numbers(line):
    return [] if line == b"-" else [number(word) for word in line.split(b" ")]


def parse(text):
    """The field, m, and each command's letter and numbers."""
    want(len(text) <= MOST_BYTES)
    want(text.endswith(b"\n"))
    lines = text[:-1].split(b"\n")
    words = lines[0].split(b" ")
    want(len(words) == 3)
    letter = words[0].decode("latin-1")
    want(letter in FIELDS)
    field = FIELDS[letter]
    m, count = number(words[1]), number(words[2])
    want(m <= 9 and 1 <= count <= MOST_COMMANDS)
    want(len(lines) == 2 + count)
    letters = lines[1].decode("latin-1")
    want(len(letters) == count)
    commands = []
    for letter, line in zip(letters, lines[2:]):
        want(letter in TAKES)
        given = numbers(line)
        if letter == "P":
            want(len(given) <= MOST_SYMBOLS)
            want(all(x < field.size for x in given))
        else:
            want(len(given) == TAKES[letter])
        if letter == "A":
            want(given[2] < field.size)
        commands.append((letter, given))
    return field, m, commands


# Transcripts.

def answer(letter, call, given):
    """The line of a call."""
    try:
        words = [letter, 0, *call(*given)]
    except Refused as why:
        words = [letter, *why.args]
    return " ".join(map(str, words)) + "\n"


def transcript(text):
    try:
        field, m, commands = parse(text)
    except Broken:
        return "E\n"
    ledger = Ledger(field, m)
    lines = [answer("S", ledger.set_up, [])]
    for letter, given in commands:
        lines.append(answer(letter, getattr(ledger, letter), given))
    return "".join(lines)


def read(name):
    if name == "-":
        return sys.stdin.buffer.read()
    with open(name, "rb") as script:
        return script.read()


def main(names):
    if not names:
        sys.stdout.write(transcript(read("-")))
    for name in names:
        sys.stdout.write(f"{name}\n{transcript(read(name))}")


if __name__ == "__main__":
    main(sys.argv[1:])
