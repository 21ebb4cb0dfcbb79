#!/usr/bin/env python3
"""Counts the paths that lead down crates.txt: the toolchain sums a crate's files once for each of them.

usage: bench/paths.py [--limit N] [FILE]

It prints the count, and behind it the crates with most paths below them. With --limit it ends with 1 where there are
more paths than N. An edge that other edges imply is one that a crate can do without: the crate between passes on
what is below it (docs/ARCHITECTURE.md).
"""

from __future__ import annotations

import argparse
import os
import sys
from functools import lru_cache
from typing import Dict, List

SHOWN = 5


def read_edges(text: str) -> Dict[str, List[str]]:
    """Gives the crates of crates.txt, each with those of the same file that it stands on."""
    below: Dict[str, List[str]] = {}
    for line in text.splitlines():
        head, colon, tail = line.partition("#")[0].partition(":")
        if colon:
            below[head.split()[0]] = tail.split()
    return {crate: [it for it in named if it in below] for crate, named in below.items()}


def count_paths(below: Dict[str, List[str]]) -> Dict[str, int]:
    """Gives how many paths lead down from each crate. The one of no step counts."""

    @lru_cache(maxsize=None)
    def paths(crate: str) -> int:
        return 1 + sum(paths(it) for it in below[crate])

    return {crate: paths(crate) for crate in below}


def main() -> int:
    top = os.path.dirname(os.path.dirname(os.path.realpath(__file__)))
    words = argparse.ArgumentParser(description="Counts the paths that lead down crates.txt.")
    words.add_argument("--limit", type=int, help="end with 1 where there are more paths")
    words.add_argument("file", nargs="?", default=os.path.join(top, "crates.txt"), help="another file than crates.txt")
    given = words.parse_args()
    with open(given.file, encoding="utf-8") as file:
        found = count_paths(read_edges(file.read()))
    total = sum(found.values())
    dearest = sorted(found, key=lambda crate: -found[crate])[:SHOWN]
    print(f"{total} paths: " + ", ".join(f"{crate} {found[crate]}" for crate in dearest))
    return int(given.limit is not None and total > given.limit)


if __name__ == "__main__":
    sys.exit(main())
