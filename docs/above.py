#!/usr/bin/env python3
"""Says which crates stand on a crate, and so are proved anew after a change of it; without a name, the longest chain of crates that the
program stands on, by the processor seconds of their proofs, as docs/COSTS.md has them, with those that have none there; and the one of most
crates, with the four of the base counted as one. It ends with status 1 where a chain is longer than it may be.

    python3 docs/above.py plain_edits
    python3 docs/above.py
"""
import os, re, sys

TOP = os.path.dirname(os.path.dirname(os.path.abspath(__file__)))
BASE, PROGRAM = "the base", "xi_core"
PARTS = {"plain_text", "plain_edits", "plain_screen", "xi_plain"}
SECONDS, CRATES = 1200, 12  # what one chain may take, and how many crates it may have

uses = {}  # each crate stands in the file below those that it uses
for line in open(f"{TOP}/crates.txt", encoding="utf-8"):
    name, colon, below = line.split("#")[0].partition(":")
    if colon: uses[name] = below.split()


def above(crate):
    found = [crate]
    for name, below in uses.items():
        if {*below} & {*found}: found.append(name)
    return found[1:]


def seconds():
    """The processor seconds that the proof of each crate took."""
    took = {}
    for line in open(f"{TOP}/docs/COSTS.md", encoding="utf-8"):
        row = re.match(r"\| `(\w+)` \| (\d*) \|.*\|.*\|", line)
        if row: took[row[1]] = int(row[2] or 0)
    took[BASE] = sum(took.get(it, 0) for it in PARTS)
    return took


def longest_chain(length):
    """The longest chain of crates that the program stands on, by this length of one."""
    chains = {BASE: [BASE]}
    for name, below in uses.items():
        if name in PARTS: continue
        below = dict.fromkeys(BASE if it in PARTS else it for it in below)
        chains[name] = max((chains[it] for it in below if it in chains), key=lambda chain: sum(map(length, chain)), default=[]) + [name]
    return chains[PROGRAM]


if sys.argv[1:]:
    crates = above(sys.argv[1])
    print(len(crates), "crates:", *crates)
else:
    took = seconds()
    slowest, longest = longest_chain(lambda it: took.get(it, 0)), longest_chain(lambda it: 1)
    waits = sum(took.get(it, 0) for it in slowest)
    unknown = [it for it in dict.fromkeys(slowest[::-1] + longest[::-1]) if not took.get(it)]
    print(f"{waits} seconds of {SECONDS}:", " > ".join(f"{it} {took.get(it, 0)}" for it in slowest[::-1]))
    if unknown: print("without seconds:", *unknown)
    print(f"{len(longest)} crates of {CRATES}:", " > ".join(longest[::-1]))
    sys.exit(waits > SECONDS or len(longest) > CRATES)
