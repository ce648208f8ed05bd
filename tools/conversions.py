#!/usr/bin/env python3
"""Prints the table of rows by which the conversions between bases are tested.

Each number is a whole number, and each word its residue. The conversions are done on the whole numbers: what is
converted, lifted, divided or taken back is never put together from residues again.
"""

import random

from roots import AUXILIARY, M_SK, SETS

GAMMA = 0xFFFFFFFFF70001
M_TILDE = 1 << 32


def product(moduli):
    result = 1
    for q in moduli:
        result *= q
    return result


def fast_conversion(x, moduli):
    q = product(moduli)
    return sum(x * pow(q // p, -1, p) % p * (q // p) for p in moduli)


def lift(x, moduli):
    q = product(moduli)
    converted = fast_conversion(M_TILDE * x, moduli)
    r = -converted * pow(q, -1, M_TILDE) % M_TILDE
    quotient, rest = divmod(converted + q * (r - M_TILDE if r >= M_TILDE // 2 else r), M_TILDE)
    assert rest == 0 and (quotient - x) % q == 0 and 2 * M_TILDE * abs(quotient) <= q * (M_TILDE + 2 * len(moduli))
    return quotient


def floor(d, moduli, t):
    q = product(moduli)
    quotient, rest = divmod(t * d - fast_conversion(t * d, moduli), q)
    assert rest == 0 and 0 <= t * d // q - quotient < len(moduli)
    return quotient


def dropped(x, p):
    r = x % p
    return (x - (r - p if r > p // 2 else r)) // p


def print_rows(name, numbers, moduli):
    print(f"        {name}: &[")
    for p in moduli:
        print("            [" + ", ".join(str(x % p) for x in numbers) + "],")
    print("        ],")


def print_moduli(name, moduli):
    print(f"        {name}: &[" + ", ".join(str(p) for p in moduli) + "],")


def print_set(name):
    n, t, data, special, aux_count = SETS[name]
    q, aux = product(data), AUXILIARY[:aux_count]
    b, to = product(aux), aux + [M_SK]
    keys = data + [special] if special else to
    rng = random.Random(name)
    x = [q - 1, (q - 1) // 2, (q + 1) // 2, rng.randrange(q)]
    d = [-n * q * q // 2, n * q * q // 2, -1, -rng.randrange(q * q)]
    e = [-b * (M_SK // 4), b * (M_SK // 4), -1, -rng.randrange(b * (M_SK // 4))]
    half = keys[-1] // 2
    whole = [product(keys) - 1, half, half + 1, rng.randrange(product(keys))]
    print("    SetRows {")
    print(f'        set: "{name}",')
    print(f"        plain: {t},")
    print_moduli("data", data)
    print_moduli("aux", aux)
    print_moduli("keys", keys)
    print_rows("x", x, data)
    print_rows("converted", [fast_conversion(a, data) for a in x], [t, GAMMA])
    print_rows("lifted", [lift(a, data) for a in x], to)
    print_rows("d", d, data)
    print_rows("d_aux", d, to)
    print_rows("floor", [floor(a, data, t) for a in d], to)
    print_rows("e", e, to)
    print_rows("back", e, data)
    print_rows("whole", whole, keys)
    print_rows("dropped", [dropped(a, keys[-1]) for a in whole], keys[:-1])
    print("    },")


def main():
    for name in SETS:
        print_set(name)


if __name__ == "__main__":
    main()
