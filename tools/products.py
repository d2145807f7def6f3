#!/usr/bin/env python3
"""Prints the tables that the tests of the fields compare with, as Rust constants: products and
inverses of bytes by sympy's polynomials over two elements, and of words by Python's integers."""
import random

from sympy import ZZ
from sympy.polys.galoistools import gf_gcdex, gf_mul, gf_rem

MODULUS = [1, 0, 0, 0, 1, 1, 0, 1, 1]  # x^8 + x^4 + x^3 + x + 1
PRIME = 65537


def polynomial(byte):
    return [int(digit) for digit in bin(byte)[2:]] if byte else []


def byte(coefficients):
    return int("".join(str(c) for c in coefficients) or "0", 2)


def product(a, b):
    return byte(gf_rem(gf_mul(polynomial(a), polynomial(b), 2, ZZ), MODULUS, 2, ZZ))


def inverse(a):
    factor, _, _ = gf_gcdex(polynomial(a), MODULUS, 2, ZZ)
    return byte(factor)


def table(name, kind, rows, show):
    print(f"const {name}: [({kind}); {len(rows)}] = [")
    for row in rows:
        print("    (" + ", ".join(show(n) for n in row) + "),")
    print("];\n")


def main():
    chance = random.Random(197)
    edges = [(0, 0xFF), (1, 0xFF), (0xFF, 0xFF), (0x80, 0x80), (2, 0x80), (0x80, 2)]
    pairs = edges + [(chance.randrange(256), chance.randrange(256)) for _ in range(58)]
    units = [1, 2, 3, 0x80, 0xFE, 0xFF] + [chance.randrange(4, 254) for _ in range(10)]
    hexadecimal = lambda n: f"0x{n:02x}"
    table("BYTE_PRODUCTS", "u32, u32, u32", [(a, b, product(a, b)) for a, b in pairs], hexadecimal)
    table("BYTE_INVERSES", "u32, u32", [(a, inverse(a)) for a in units], hexadecimal)
    edges = [(0, 65536), (1, 65536), (65536, 65536), (65535, 65536), (256, 256), (32768, 2)]
    pairs = edges + [(chance.randrange(PRIME), chance.randrange(PRIME)) for _ in range(6)]
    units = [1, 2, 3, 32768, 65535, 65536] + [chance.randrange(4, 65535) for _ in range(10)]
    table("WORD_PRODUCTS", "u32, u32, u32", [(a, b, a * b % PRIME) for a, b in pairs], str)
    table("WORD_INVERSES", "u32, u32", [(a, pow(a, -1, PRIME)) for a in units], str)


main()
