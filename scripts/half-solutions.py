#!/usr/bin/env python3
"""Prints the tables of crates/root_finder/src/quadratic.rt: for each field and each j < m the solution y, with bit 0 clear, of
y^2 + y = a^j, or of y^2 + y = a^j + u where a^j has the trace 1. u is the lowest power of a with the trace 1. For j = m there is a 0.
"""


def product(m, modulus, x, y):
    result = 0
    for i in reversed(range(m)):
        result <<= 1
        if result >> m:
            result ^= modulus
        if y >> i & 1:
            result ^= x
    return result


for m, modulus in ((13, 0x201B), (14, 0x402B)):
    solution = {product(m, modulus, y, y) ^ y: y for y in range(0, 1 << m, 2)}
    unit = next(1 << j for j in range(m) if 1 << j not in solution)
    print(f"m = {m}, u = a^{unit.bit_length() - 1}")
    halves = [solution.get(1 << j, solution.get(1 << j ^ unit)) for j in range(m)]
    print(f"    {', '.join(map(str, (halves + [0])[:14]))},")
