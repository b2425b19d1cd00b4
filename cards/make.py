#!/usr/bin/env python3
"""Writes the sample cards of this folder: a links file for each. Run it in this folder; what it writes is kept here, and the tests compare."""
from itertools import combinations
from pathlib import Path


def all_pairs(*accounts):
    return list(combinations(accounts, 2))


def two(x):
    return x.to_bytes(2, "big")


def links_file(n, pairs):
    head = bytes([1]) + two(n) + two(len(pairs))
    return head + b"".join(bytes([6]) + two(a) + two(b) for a, b in pairs) + bytes([5])


A = [(0, 1), (0, 2), (1, 2), (1, 3), (2, 3), (3, 4)]

CARDS = {
    # the cards of document 01
    "A": (5, A),
    "B": (7, all_pairs(0, 1, 2, 3) + all_pairs(3, 4, 5, 6) + [(2, 4)]),
    # the pairs of card A in another order, some the other way round
    "A-shuffled": (5, [(4, 3), (2, 1), (0, 2), (3, 1), (1, 0), (3, 2)]),
    # two triangles that share account 2: two groups at 3
    "bow-tie": (5, all_pairs(0, 1, 2) + all_pairs(2, 3, 4)),
    # five accounts all linked; three of them all linked with 5; one more triangle on 4-5: a group in a group in a group
    "nested": (7, all_pairs(0, 1, 2, 3, 4) + [(2, 5), (3, 5), (4, 5), (4, 6), (5, 6)]),
    # no triangle: each link is a group, though two share account 1
    "pairs": (5, [(3, 4), (1, 2), (0, 1)]),
    # three accounts and no link
    "no-links": (3, []),
    # refused: the second link names 0-1 again, the other way round
    "repeated": (3, [(0, 1), (1, 0)]),
}

if __name__ == "__main__":
    for name, (n, pairs) in CARDS.items():
        Path(name + ".links").write_bytes(links_file(n, pairs))
