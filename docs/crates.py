#!/usr/bin/env python3
"""What each crate is, behind its line of crates.txt: the first sentence of its source's first comment.

    python3 docs/crates.py --write    puts it there
    python3 docs/crates.py            names each line that says something else; status 1 where there is one
"""
import os, re, sys

TOP = os.path.dirname(os.path.dirname(os.path.abspath(__file__)))
PAGE = f"{TOP}/crates.txt"


def sentence(crate):
    """The first sentence of a crate's first comment, up to its first colon where it is a long one."""
    source = next(it for it in (f"{TOP}/crates/{crate}/src/{name}.rt" for name in ("lib", "main")) if os.path.exists(it))
    comment = re.match(r"(?://! .*\n)+", open(source, encoding="utf-8").read())
    text = re.sub(r"(?m)^//! ", "", comment[0]).replace("\n", " ").strip()
    first = re.match(r"(.*?)\.(?: |$)", text)[1]
    return first if len(first) < 80 else re.match(r"[^:;,]*", first)[0]


lines = open(PAGE, encoding="utf-8").read().split("\n")
said = []
for line in lines:
    crate, colon, uses = line.partition("#")[0].rstrip().partition(":")
    said.append(f"{crate}:{uses}  # {sentence(crate)}" if colon else line)
if sys.argv[1:] == ["--write"]: open(PAGE, "w", encoding="utf-8").write("\n".join(said))
else:
    for line, wanted in zip(lines, said):
        if line != wanted: print(f"crates.txt: {wanted}")
    sys.exit(lines != said)
