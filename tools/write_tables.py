#!/usr/bin/env python3
"""Writes the tables of the quick BCH codes and the masks; run `rt fmt` in the three crates afterwards.

The prover checks each row of remainders, the powers and the generators of gf13_tables and gf14_tables, and
the masks of ecc_page. The logarithms and the odd powers are not claimed: what they give is tested
where it is used.
"""
from pathlib import Path

CRATES = Path(__file__).resolve().parent.parent / "crates"


def product(a, b):
    return 0 if b == 0 else (product(a, b >> 1) << 1) ^ (a if b & 1 else 0)


class Code:
    """A code over steps of `step` bytes, by the field of 2^degree elements modulo `modulus`."""

    def __init__(self, degree, modulus, name, step):
        self.degree, self.modulus, self.name, self.step = degree, modulus, name, step
        self.order = 2**degree - 1
        self.powers, power = [], 1
        for _ in range(self.order):
            self.powers.append(power)
            power <<= 1
            if power >> degree:
                power ^= modulus
        assert power == 1
        self.logarithms = [0] * 2**degree
        for exponent, power in enumerate(self.powers):
            self.logarithms[power] = exponent

    def power(self, n):
        return self.powers[n % self.order]

    def field_product(self, a, b):
        return self.power(self.logarithms[a] + self.logarithms[b]) if a and b else 0

    def minimal_polynomial(self, j):
        """The product of X + x^(j 2^i) over i below the degree: bit k is the coefficient of X^k."""
        coefficients = [1]
        for i in range(self.degree):
            root = self.power(j * 2**i)
            scaled = [self.field_product(root, c) for c in coefficients] + [0]
            coefficients = [a ^ b for a, b in zip([0] + coefficients, scaled)]
        assert all(c in (0, 1) for c in coefficients)
        return sum(c << k for k, c in enumerate(coefficients))

    def generator(self, t):
        return 1 if t == 0 else product(self.generator(t - 1), self.minimal_polynomial(2 * t - 1))

    def remainder_tables(self, t, width):
        """Row k of table j: k x^(width + 8 j) modulo the generator moved up to degree `width`."""
        aligned = self.generator(t) << (width - self.degree * t)
        rows = [k << (width - 8) for k in range(256)]
        tables = []
        for _ in range(4):
            for _ in range(8):
                rows = [(a << 1) ^ (aligned if a >> (width - 1) else 0) for a in rows]
            tables.append(rows)
        return tables

    def mask(self, t, room):
        """The complement of the parity of a step of 0xFF, in `room` bytes with zeros behind it."""
        bits, length = self.degree * t, (self.degree * t + 7) // 8
        remainder, f = 0, self.generator(t)
        for bit in [1] * (8 * self.step) + [0] * bits:
            remainder = 2 * remainder + bit
            if remainder >> bits:
                remainder ^= f
        parity = remainder << (8 * length - bits)
        return [f"0x{255 - byte:02x}" for byte in parity.to_bytes(length, "big")] + ["0x00"] * (room - length)


def literal(value):
    if isinstance(value, (list, tuple)):
        return "[" + ", ".join(map(literal, value)) + "]"
    return value if isinstance(value, str) else str(value)


def static(comment, visibility, name, kind, value):
    return f"/// {comment}\n{visibility} static {name}: {kind} = {literal(value)};\n"


def write(crate, heading, statics, name="tables.rt"):
    text = f"// {heading} Written by a script.\n\n" + "\n".join(statics)
    (CRATES / crate / "src" / name).write_text(text)


def halves(value):
    return [hex(value >> 128), hex(value & (2**128 - 1))]


def in_hex(tables, row=hex):
    return [[row(value) for value in rows] for rows in tables]


def write_tables(crate, code):
    n, t_to = 2**code.degree, code.remainder_tables
    write(
        crate,
        "Remainders of bytes by the generators, moved up to the width of a register.",
        [
            static("For 1 to 4 wrong bits, a register of 64 bits.", "pub(crate)", "NARROW",
                   "[[[u64; 256]; 4]; 4]", [in_hex(t_to(t, 64)) for t in range(1, 5)]),
            static("For 5 to 9 wrong bits, a register of 128 bits.", "pub(crate)", "MIDDLE",
                   "[[[u128; 256]; 4]; 5]", [in_hex(t_to(t, 128)) for t in range(5, 10)]),
            static("For 10 to 16 wrong bits, a register of 256 bits in two halves.", "pub(crate)", "WIDE",
                   "[[[[u128; 2]; 256]; 4]; 7]",
                   [in_hex(t_to(t, 256), halves) for t in range(10, 17)]),
        ],
        "rows.rt",
    )
    write(
        crate,
        f"Powers and logarithms of the field of 2^{code.degree} elements, modulo {code.name}.",
        [
            static("Entry n is the n-th power of x.", "pub(crate)", "POWERS", f"[u16; {2 * n}]",
                   [code.power(i) for i in range(2 * n)]),
            static("Entry a is the logarithm of a, and entry 0 is 0.", "pub(crate)", "LOGARITHMS",
                   f"[u16; {n}]", code.logarithms),
            static("Entry k has the k-th powers of x, x^3, x^5 and so on to x^31.", "pub(crate)",
                   "ODD_POWERS", f"[[u16; 16]; {16 * code.degree}]",
                   [[code.power((2 * i + 1) * k) for i in range(16)] for k in range(16 * code.degree)]),
        ],
        "powers.rt",
    )


CODE_512 = Code(13, 0x201B, "x^13 + x^4 + x^3 + x + 1", 512)
CODE_1024 = Code(14, 0x402B, "x^14 + x^5 + x^3 + x + 1", 1024)

write_tables("gf13_tables", CODE_512)
write_tables("gf14_tables", CODE_1024)
write(
    "gf14_tables",
    "The generators of the code over steps of 1024 bytes.",
    [
        static("For 1 to 16 wrong bits, each in two halves of 128 bits: the coefficients from x^128 on, "
               "and those below.", "pub(crate)", "GENERATORS", "[[u128; 2]; 16]",
               [halves(CODE_1024.generator(t)) for t in range(1, 17)]),
    ],
    "generators.rt",
)
write(
    "ecc_page",
    "The masks over stored parities.",
    [
        static("Row t - 1 is the mask of the code that corrects t wrong bits, with zeros behind it.",
               "pub(crate)", "MASKS", "[[u8; 26]; 16]", [CODE_512.mask(t, 26) for t in range(1, 17)]),
    ],
    "masks.rt",
)
