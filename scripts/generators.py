#!/usr/bin/env python3
"""Computes the minimal polynomials and the generators of document 01, "The code", from their definition.

    scripts/generators.py thirteen    crates/generators/src/thirteen.rt, as it stands there
    scripts/generators.py fourteen    crates/generators/src/fourteen.rt
    scripts/generators.py lists       the lists of crates/generators/specs/Rows.antt
    scripts/generators.py minimals    the lists of crates/code/specs/Generator.antt

A polynomial over GF(2) is a number: bit p is the coefficient of x^p. The generator of a level t is the polynomial of least degree that is zero
at a, a^2, .., a^(2t), so the product of the different minimal polynomials of these powers.
"""
import sys

FIELDS = {13: 0x201B, 14: 0x402B}  # x^13 + x^4 + x^3 + x + 1, x^14 + x^5 + x^3 + x + 1
NAMES = {13: "thirteen", 14: "fourteen"}
MOST = 31  # the highest level field, for t = 62
WORDS = 14  # of 64 bits in a row: room for 14 * 62 + 1 coefficients
WIDTH = 60  # the longest row that the formatter leaves on one line


def product(m, x, y):
    """The product of two elements of the field of 2^m elements."""
    result = 0
    while y:
        if y & 1:
            result ^= x
        y >>= 1
        x <<= 1
        if x >> m:
            x ^= FIELDS[m]
    return result


def minimal(m, y):
    """The minimal polynomial of y: the product of x + c over the conjugates c of y, whose coefficients are all 0 or 1."""
    conjugates = [y]
    while (square := product(m, conjugates[-1], conjugates[-1])) != y:
        conjugates.append(square)
    coefficients = [1]  # of x^0, x^1, ..
    for c in conjugates:
        coefficients = [s ^ product(m, c, k) for s, k in zip([0] + coefficients, coefficients + [0])]
    assert all(k < 2 for k in coefficients)
    return sum(k << p for p, k in enumerate(coefficients))


def times(x, y):
    """The product of two polynomials over GF(2)."""
    result = 0
    while y:
        if y & 1:
            result ^= x
        y >>= 1
        x <<= 1
    return result


def minimals(m, t):
    """The different minimal polynomials of a, a^2, .., a^(2t), each at the first power that has it."""
    found, power = [], 1
    for _ in range(2 * t):
        power = product(m, power, 2)
        polynomial = minimal(m, power)
        if polynomial not in found:
            found.append(polynomial)
    return found


def generators(m):
    """The generators of t = 0, 2, .., 62, each in words of 64 bits, the lowest first."""
    result, found = 1, []
    polynomials = minimals(m, 2 * MOST)
    for level_field in range(MOST + 1):
        assert result.bit_length() == m * 2 * level_field + 1
        found.append([result >> (64 * i) & (2**64 - 1) for i in range(WORDS)])
        for polynomial in polynomials[2 * level_field : 2 * level_field + 2]:
            result = times(result, polynomial)
    return found


def literal(word):
    return f"{word:#x}" if word > 9 else str(word)


def array(row, indent):
    """A row as an array in the formatter's layout."""
    line = ", ".join(map(literal, row))
    if len(line) <= WIDTH:
        return f"[{line}]"
    return "[\n" + "".join(f"{indent}    {literal(word)},\n" for word in row) + f"{indent}]"


def code(m):
    rows = "".join(f"    {array(row, ' ' * 4)},\n" for row in generators(m))
    return (
        f"// The generators for m = {m}, by level field, as `scripts/generators.py {NAMES[m]}` prints them.\n"
        f"pub static ROWS: [[u64; {WORDS}]; {MOST + 1}] = [\n{rows}];\n"
    )


def lists():
    """For each field its rows as one list of lists of words."""
    found = []
    for m, name in NAMES.items():
        rows = ["(" + " ∷ ".join(map(literal, row)) + " ∷ [])" for row in generators(m)]
        found.append(f"abbrev pub {name} : List (List ℕ)\n{name} =\n    " + "\n    ∷ ".join(rows) + "\n    ∷ []\n")
    return "\n".join(found)


def minimal_lists():
    return "\n".join(f"minimals{m}: " + " ∷ ".join(f"{x:#x}" for x in minimals(m, 62)) for m in FIELDS) + "\n"


if __name__ == "__main__":
    printers = {"thirteen": lambda: code(13), "fourteen": lambda: code(14), "lists": lists, "minimals": minimal_lists}
    if len(sys.argv) != 2 or sys.argv[1] not in printers:
        sys.exit(__doc__)
    print(printers[sys.argv[1]](), end="")
