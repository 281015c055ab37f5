#!/usr/bin/env python3
"""Names each example of a page for authors that is no piece of a script that the page names before it, and each line of Rust there that no
source has. It ends with status 1 where there is one.

    python3 docs/pieces.py
"""
import glob, os, re, sys

TOP = os.path.dirname(os.path.dirname(os.path.abspath(__file__)))
PAGES = ("PLUGINS.md", "PROTOCOL.md")
CRATES = ("shipped_plugins", "shipped_cases", "plugin_side", "plugin_session", "plugin_replacer", "xi_plain", "plain_edits", "turn_cases")  # whose code a page shows
MARK = re.compile(r"(?:[<>][|*]?|@[=>|-]?|!|=|[1-9][<>]) |[1-9][.!]$")
RUST = re.compile(r"(?:pub |impl |fn |use |let |match |const |self\.|///|#\[)")

scripts = {}  # by name, the lines of each without its remarks
for path in glob.glob(f"{TOP}/crates/protocol_cases/data/*/*.script"):
    with open(path, encoding="utf-8", errors="replace") as it: lines = it.read().split("\n")[:-1]
    scripts[os.path.basename(path)[:-7]] = [line for line in lines if not line.startswith("#")]

code = set()  # each line of the sources, without what stands before it
for crate in CRATES:
    for path in glob.glob(f"{TOP}/crates/{crate}/src/*.rt"):
        with open(path, encoding="utf-8") as it: code |= {line.strip() for line in it}


def is_piece(block, script): return any(script[at:at + len(block)] == block for at in range(len(script)))


def is_said(line): return line in code or line.rstrip(" {;") in code


wrong = []
for page in PAGES:
    named, fresh, block = [], [], []  # the scripts that a block may be of, those named since the last one, and the block
    with open(f"{TOP}/docs/{page}", encoding="utf-8") as it: lines = [*it.read().split("\n"), ""]
    for number, line in enumerate(lines, 1):
        if line.startswith("    "):
            block.append(line[4:])
            continue
        if block: named, fresh = fresh or named, []
        if block and MARK.match(block[0]) and not any(is_piece(block, scripts[name]) for name in named):
            wrong.append(f"docs/{page}:{number - len(block)}: no piece of a script that is named before it")
        if block and RUST.match(block[0]):
            shown = [it.split("  //")[0].strip() for it in block]
            wrong += [f"docs/{page}: no source has the line {it}" for it in shown if it and not is_said(it)]
        block = []
        fresh += [name for name in re.findall(r"`(\w+)(?:\.script)?`", line) if name in scripts]

print(*wrong, sep="\n", end="\n" if wrong else "")
sys.exit(1 if wrong else 0)
