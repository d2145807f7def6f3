#!/usr/bin/env python3
"""What the program `renewal` must print, worked out apart from it.

The field of bytes by logarithms to the base 3, the blocks as matrices built
from their left eigenvectors, and what is lost by solving the linear equations
of the numbers that are left with Gaussian elimination.

The lines, with columns and halves as `box N:` and the numbers of their symbols:
- a heading, and the columns of all boxes, the parities last;
- a heading, and the halves that the other boxes send for the lost box, in the
  order in which they arrive;
- a heading, the lost column renewed from them, whether it is the lost one, and
  how many numbers were taken, beside the cost of whole columns;
- a heading, and what is left of the columns of two boxes that are out: zeros;
- a heading, these columns decoded from the columns of the others, and whether
  they are the lost ones.
"""

LEVELS = [
    101, 104, 98, 107, 188, 192, 181, 196, 110, 113, 109, 95,
    201, 205, 199, 187, 92, 90, 88, 103, 176, 180, 171, 168,
]
M, LOST = 2, 3
ROWS, BOXES = 2 ** M, 3 * M
ARRIVING = [6, 1, 8, 4, 2, 7, 5]  # the helpers of the lost box
OUT = [2, 5]

EXP, LOG = [], {}
x = 1
for n in range(255):
    EXP.append(x)
    LOG[x] = n
    x ^= (x << 1) ^ (0x11b if x & 0x80 else 0)
    x &= 0xff


def mul(a, b):
    return EXP[(LOG[a] + LOG[b]) % 255] if a and b else 0


def inv(a):
    return EXP[-LOG[a] % 255]


# left eigenvectors: lower (1,0), upper (0,1), sum (1,1), counted cyclically
FUNCTIONALS = [(1, 0), (0, 1), (1, 1)]


def matrix(kind, p, q):
    """The 2 by 2 matrix whose rows e, f of eigenvalues p, q are those of the kind."""
    e, f = FUNCTIONALS[(kind + 1) % 3], FUNCTIONALS[(kind + 2) % 3]
    det = inv(mul(e[0], f[1]) ^ mul(e[1], f[0]))
    left = [[mul(det, f[1]), mul(det, e[1])], [mul(det, f[0]), mul(det, e[0])]]
    right = [[mul(p, e[0]), mul(p, e[1])], [mul(q, f[0]), mul(q, f[1])]]
    return [[mul(left[i][0], right[0][j]) ^ mul(left[i][1], right[1][j]) for j in (0, 1)] for i in (0, 1)]


def pairs(direction):
    weight = 2 ** (M - direction)
    return [(a, a + weight) for a in range(ROWS) if not a & weight]


def kind_direction(box):
    return (box - 1) // M, (box - 1) % M + 1


def image(box, column):
    kind, direction = kind_direction(box)
    a = matrix(kind, 2 * direction - 1, 2 * direction)
    out = [0] * ROWS
    for low, high in pairs(direction):
        for i, row in ((0, low), (1, high)):
            out[row] = mul(a[i][0], column[low]) ^ mul(a[i][1], column[high])
    return out


def encode(file):
    columns = [file[b * ROWS:(b + 1) * ROWS] for b in range(BOXES)]
    first, second = [0] * ROWS, [0] * ROWS
    for b, column in enumerate(columns):
        first = [s ^ t for s, t in zip(first, column)]
        second = [s ^ t for s, t in zip(second, image(b + 1, column))]
    return columns + [first, second]


def half(column):
    kind, direction = kind_direction(LOST)
    u, v = FUNCTIONALS[kind]
    return [mul(u, column[low]) ^ mul(v, column[high]) for low, high in pairs(direction)]


def halves(file):
    columns = encode(file)
    return sum((half(columns[b - 1]) for b in ARRIVING), [])


def kept(file):
    columns = encode(file)
    return sum((columns[b - 1] for b in range(1, BOXES + 3) if b not in OUT), [])


def solve(left, boxes):
    """The columns of some boxes of any file that leaves the numbers that LEVELS leaves, by elimination
    over all symbols of a file."""
    n = BOXES * ROWS
    unit = [left([1 if i == k else 0 for i in range(n)]) for k in range(n)]
    want = left(LEVELS)
    lost = [(b - 1) * ROWS + a for b in boxes for a in range(ROWS)]
    order = [k for k in range(n) if k not in lost] + lost
    system = [[unit[k][r] for k in order] + [want[r]] for r in range(len(want))]
    row, found = 0, {}
    for c in range(n):
        pivot = next((r for r in range(row, len(system)) if system[r][c]), None)
        if pivot is None:
            continue
        system[row], system[pivot] = system[pivot], system[row]
        d = inv(system[row][c])
        system[row] = [mul(d, v) for v in system[row]]
        for r in range(len(system)):
            if r != row and system[r][c]:
                f = system[r][c]
                system[r] = [v ^ mul(f, w) for v, w in zip(system[r], system[row])]
        found[c] = row
        row += 1
    out = []
    for k in lost:
        c = order.index(k)
        assert all(not system[found[c]][d] for d in range(n) if d != c), "not determined"
        out.append(system[found[c]][n])
    return [out[i:i + ROWS] for i in range(0, len(out), ROWS)]


def line(box, symbols):
    return f"box {box}: " + " ".join(map(str, symbols))


columns = encode(LEVELS)
print(f"A cabinet of {BOXES} data boxes and 2 parity boxes, {ROWS} symbols in each:")
for b, column in enumerate(columns):
    print(line(b + 1, column))
print(f"Box {LOST} is lost. The others send their halves, which arrive in this order:")
for b in ARRIVING:
    print(line(b, half(columns[b - 1])))
[renewed] = solve(halves, [LOST])
print("Renewed from them:")
print(line(LOST, renewed))
print("It is the lost column." if renewed == columns[LOST - 1] else "It is not the lost column.")
print(f"Numbers taken: {len(halves(LEVELS))}. Whole columns would have cost {BOXES * ROWS}.")
print("Boxes {} and {} are out. This is left of their columns:".format(*OUT))
for b in OUT:
    print(line(b, [0] * ROWS))
print("Decoded from the columns of the others:")
decoded = solve(kept, OUT)
for b, column in zip(OUT, decoded):
    print(line(b, column))
same = decoded == [columns[b - 1] for b in OUT]
print("They are the lost columns." if same else "They are not the lost columns.")
