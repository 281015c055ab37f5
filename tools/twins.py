#!/usr/bin/env python3
"""Lists statements that stand more than once: lemmas and definitions of .antt files, and functions of six lines and more of .rt files. Two
statements are one where they read the same once their own name is left out and the names of their variables are made alike.

    python3 tools/twins.py             each group, the largest first, and how many there are
    python3 tools/twins.py --count     that number alone
    python3 tools/twins.py --base      the groups of which one copy stands on a page for callers already
"""
import glob, os, re, sys

TOP = os.path.dirname(os.path.dirname(os.path.abspath(__file__)))
WORD = re.compile(r"[^\W\d][\w'₀-₉-]*|\d+|[^\s\w]")
LEAST = 6  # lines of a function


def alike(text, own, variables):
    """The text with its own name left out and its variables numbered as they come."""
    numbers, found = {}, []
    for word in WORD.findall(text):
        if word == own: word = "SELF"
        elif word in variables: word = f"v{numbers.setdefault(word, len(numbers))}"
        found.append(word)
    return " ".join(found)


def bound_in(text):
    """The variables that binders of a type, a λ or the left sides of equations name."""
    found = set()
    for group in re.findall(r"[({]([^(){}:=]+?) :", text): found |= {*group.split()}
    for names in re.findall(r"λ ([^.(]+)\.", text): found |= {*names.split()}
    return {it for it in found if re.fullmatch(r"[^\W\d][\w'₀-₉]*", it)}


def statements_of_antt(text):
    """Each declaration: its line, kind, name and the text that counts: of a lemma its type, of a definition all."""
    lines, at = text.split("\n"), 0
    while at < len(lines):
        head = re.match(r"((?:(?:abbrev|unfoldable|pub|opaque|private)\s+)*)([^\s:(){}=]+) : ", lines[at])
        if not head or lines[at].startswith(("--", "use ", "module")):
            at += 1
            continue
        end = at + 1
        while end < len(lines) and lines[end] and not lines[end].startswith(("--", "use ", "pub ", "abbrev ", "unfoldable ")): end += 1
        name, body = head[2], lines[at:end]
        kind = "definition" if re.search(r"abbrev|unfoldable", head[1]) else "lemma"
        begin = next((k for k, it in enumerate(body) if k and re.match(re.escape(name) + r"(\s|$)", it)), len(body))
        said = "\n".join(body[:begin] if kind == "lemma" else body)[len(head[1]):]
        variables = bound_in(said)
        if kind == "definition":
            for it in body[begin:]:
                left = it.split(" = ")[0]
                if it.startswith(name): variables |= {word for word in WORD.findall(left) if re.fullmatch(r"[a-z]\w*", word) and word != name}
        yield at + 1, kind, name, alike(said, name, variables)
        at = end


def statements_of_rt(text):
    """Each function of six lines and more: its body's text, with parameters and bound names alike."""
    for head in re.finditer(r"^( *)(?:pub(?:\([^)]*\))? )?fn (\w+)", text, re.M):
        end = text.find(f"\n{head[1]}}}\n", head.end())
        if end < 0: continue
        said = text[head.start() : end]
        if said.count("\n") < LEAST: continue
        names = {*re.findall(r"(\w+): ", said)} | {*re.findall(r"\blet (?:mut )?(\w+)", said)} | {*re.findall(r"\|(\w+)\|", said)} | {*re.findall(r"\bfor (\w+) in", said)}
        yield text[: head.start()].count("\n") + 1, "function", head[2], alike(said[said.index("fn ") :], head[2], names)


def groups():
    found = {}
    for path in sorted(glob.glob(f"{TOP}/crates/*/*/**/*.antt", recursive=True) + glob.glob(f"{TOP}/crates/*/src/**/*.rt", recursive=True)):
        short = os.path.relpath(path, f"{TOP}/crates")
        if "/out/" in f"/{short}" or os.path.basename(path) in ("Answers.antt", "Invariants.antt"): continue
        with open(path, encoding="utf-8") as it: text = it.read()
        read = statements_of_antt if path.endswith(".antt") else statements_of_rt
        for line, kind, name, said in read(text):
            if len(said.split()) >= 8: found.setdefault((kind, said), []).append((short, line, name))
    return sorted(((kind, places) for (kind, _), places in found.items() if len(places) > 1), key=lambda it: (-len(it[1]), it[1]))


def is_for_callers(place):
    return "/proofs/callers/" in place[0] or place[0].endswith("/proofs/ForCallers.antt")


every = groups()
if "--base" in sys.argv: every = [it for it in every if any(map(is_for_callers, it[1]))]
if "--count" not in sys.argv:
    for kind, places in every:
        print(f"{kind}, {len(places)} times")
        for path, line, name in places: print(f"    {path}:{line}  {name}{'  (for callers)' if is_for_callers((path, line, name)) else ''}")
print(f"{len(every)} groups of statements that stand more than once, {sum(len(it[1]) - 1 for it in every)} copies too many")
