#!/usr/bin/env python3
"""Names each path below crates/ that a page names and that is not there, and each crate that ARCHITECTURE does not name. It ends with status 1
where there is one.

    python3 docs/paths.py
"""
import glob, os, re, sys

TOP = os.path.dirname(os.path.dirname(os.path.abspath(__file__)))
PATH = re.compile(r"`(?:crates/)?(\w+/(?:specs|src|proofs|data|must-fail)/[\w./-]+)`")

lacking = []
for page in sorted([*glob.glob(f"{TOP}/*.md"), *glob.glob(f"{TOP}/docs/*.md")]):
    with open(page, encoding="utf-8") as it: text = it.read()
    name = os.path.relpath(page, TOP)
    lacking += [f"{name}: {path} is not there" for path in sorted({*PATH.findall(text)}) if not os.path.exists(f"{TOP}/crates/{path}")]
    if name != "docs/ARCHITECTURE.md": continue
    for line in open(f"{TOP}/crates.txt", encoding="utf-8"):
        crate, colon, _ = line.split("#")[0].partition(":")
        if colon and f"`{crate}`" not in text: lacking.append(f"{name} does not name {crate}")
print(*lacking, sep="\n", end="\n" if lacking else "")
sys.exit(bool(lacking))
