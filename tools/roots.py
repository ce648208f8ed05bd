#!/usr/bin/env python3
"""Prints the root of each modulus of each parameter set by the rule of roots.

For a modulus p that is 1 modulo 2n, the root is the first of x^((p - 1) / (2n)) modulo p,
x = 2, 3, 4 and so on, whose n-th power is p - 1. The table of roots lists these numbers.
"""

AUXILIARY = [
    0x7FFFFFFFBF0001, 0x7FFFFFFFBD0001, 0x7FFFFFFFBA0001, 0x7FFFFFFFAA0001,
    0x7FFFFFFFA50001, 0x7FFFFFFF9F0001, 0x7FFFFFFF7E0001,
]
M_SK = 0x7FFFFFFEF00001

# name: degree, plaintext modulus, data moduli, special modulus, length of the auxiliary base
SETS = {
    "one16": (16, 257, [0x7FFFFFFFE90001], None, 1),
    "toy16": (16, 257, [0x7FFFFFD8001, 0x7FFFFFC8001], 0xFFFFFEBC001, 1),
    "s4096": (4096, 65537, [0xFFFFEE001, 0xFFFFC4001], 0x1FFFFE0001, 1),
    "s8192": (
        8192, 65537,
        [0x7FFFFFD8001, 0x7FFFFFC8001, 0xFFFFFFFC001, 0xFFFFFF6C001],
        0xFFFFFEBC001, 3,
    ),
    "s16384": (
        16384, 65537,
        [
            0xFFFFFFFD8001, 0xFFFFFFFA0001, 0xFFFFFFF00001, 0x1FFFFFFF68001,
            0x1FFFFFFF50001, 0x1FFFFFFEE8001, 0x1FFFFFFEA0001, 0x1FFFFFFE88001,
        ],
        0x1FFFFFFE48001, 7,
    ),
}


def root(p: int, n: int) -> int:
    """The first root of the rule."""
    assert p % (2 * n) == 1
    x = 2
    while True:
        psi = pow(x, (p - 1) // (2 * n), p)
        if pow(psi, n, p) == p - 1:
            return psi
        x += 1


def moduli_with_roots(name: str) -> list[int]:
    """The data moduli, the special one, the auxiliary base, M_SK and the plaintext modulus."""
    _, plain, data, special, aux_count = SETS[name]
    return data + ([special] if special else []) + AUXILIARY[:aux_count] + [M_SK, plain]


def main() -> None:
    for name, (degree, *_) in SETS.items():
        print(name)
        for p in moduli_with_roots(name):
            print(f"  {p:#018x} {root(p, degree):#018x}")


if __name__ == "__main__":
    main()
