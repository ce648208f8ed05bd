#!/usr/bin/env python3
"""Prints the crates by level, from crates.txt: a crate stands one level above the highest that it stands on.

The last line is a longest chain. The status is 1 where a chain is longer than the limit, 8 crates.
"""
import pathlib
import sys

LIMIT = 8


def read_crates(path):
    """The crates of this repository, each with those of the repository that it stands on."""
    lines = [line.split(":") for line in path.read_text().splitlines() if line and not line.startswith("#")]
    names = {name for name, _ in lines}
    return {name: [other for other in others.split() if other in names] for name, others in lines}


def chain_to(name, crates, chains):
    """A longest chain of crates that ends with this one, the lowest first."""
    if name not in chains:
        below = max((chain_to(other, crates, chains) for other in crates[name]), key=len, default=[])
        chains[name] = below + [name]
    return chains[name]


def main():
    crates = read_crates(pathlib.Path(__file__).parent.parent / "crates.txt")
    chains = {}
    for name in crates:
        chain_to(name, crates, chains)
    longest = max(chains.values(), key=len)
    for level in range(1, len(longest) + 1):
        print(level, " ".join(name for name in crates if len(chains[name]) == level))
    print(f"longest chain, {len(longest)} of at most {LIMIT}:", " ".join(longest))
    return 0 if len(longest) <= LIMIT else 1


if __name__ == "__main__":
    sys.exit(main())
