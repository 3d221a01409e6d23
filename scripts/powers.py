#!/usr/bin/env python3
"""Computes the stored tables of powers and of logarithms (document 01, "The code") and prints them as they stand in the crates that hold them.

    scripts/powers.py CRATE     print the constants of powers13, logs13 or logs14
    scripts/powers.py compare   compare all of them with the stored ones; the exit status is 0 only where they agree

An element is a number whose bit i is the coefficient of x^i; a is the class of x, the number 2.
"""
import pathlib
import sys
import textwrap

CRATES = pathlib.Path(__file__).resolve().parent.parent / "crates"
MODULI = {13: 0x201B, 14: 0x402B}  # x^13 + x^4 + x^3 + x + 1 and x^14 + x^5 + x^3 + x + 1
PART = 2048


def powers(m):
    """1, a, .., a^(2^m - 2)."""
    found = [1]
    while len(found) < 2**m - 1:
        power = found[-1] * 2
        found.append(power ^ MODULI[m] if power >> m else power)
    assert len(set(found)) == len(found)
    return found


def logarithms(m):
    """For each element but 0 its exponent; for 0 it is 0."""
    found = [0] * 2**m
    for exponent, power in enumerate(powers(m)):
        found[power] = exponent
    return found


def constant(name, entries):
    """The lines of a constant, its entries wrapped at 99 columns, as `rt fmt` lays them out."""
    rows = textwrap.wrap(" ".join(f"{entry}," for entry in entries), 99, initial_indent="    ", subsequent_indent="    ")
    return "\n".join([f"const {name}: [u16; {len(entries)}] = ["] + rows + ["];"]) + "\n"


def parts(entries):
    """A constant for each part, named by the place where it begins."""
    return "\n".join(constant(f"LOGS_{at}", entries[at : at + PART]) for at in range(0, len(entries), PART))


def tables():
    """For each crate its constants."""
    return {"powers13": constant("POWERS", powers(13)), "logs13": parts(logarithms(13)), "logs14": parts(logarithms(14))}


if sys.argv[1:] == ["compare"]:
    for crate, text in tables().items():
        if not (CRATES / crate / "src/lib.rt").read_text().endswith(text):
            sys.exit(f"crates/{crate}/src/lib.rt does not end with its table")
elif len(sys.argv) == 2 and sys.argv[1] in tables():
    sys.stdout.write(tables()[sys.argv[1]])
else:
    sys.exit(__doc__)
