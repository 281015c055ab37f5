#!/usr/bin/env python3
"""Walks the citations of the headline: which definitions of specs/ it rests on, each file after those that it cites.

    python3 docs/reading.py            prints them, each with its line in words
    python3 docs/reading.py --write    puts them into docs/READING.md, below its mark
    python3 docs/reading.py --check    says whether docs/READING.md has this list; status 1 where it has another

A definition cites each word in its text that its file defines or imports.
"""
import os, re, sys

TOP = os.path.dirname(os.path.dirname(os.path.abspath(__file__)))
PAGE, MARK = f"{TOP}/docs/READING.md", "<!-- below: python3 docs/reading.py --write -->\n"
ROOT = "xi_forms/src/forms.rt"  # the clauses of `xi_main`, which are those of `run_alone` and of `run_storm`
HEAD = re.compile(r"(?:  )?(?:abbrev |unfoldable )?pub (?:record |data )?([A-Za-z_]\w*) ?[:({]")
kit, types, below, seen = set(), set(), {}, set()


def text_of(path): return open(f"{TOP}/crates/{path}", encoding="utf-8").read()
def words_in(text): return re.findall(r"(?<![.\w])[A-Za-z_]\w*", text)
def title_of(path): return "".join(re.findall(r"\A-- (.*\n(?:-- .*\n)*)use ", text_of(path))).replace("\n-- ", " ").strip()


def imports(text):
    """What each imported name is: the parts of its module's path, and its name there."""
    found = {}
    for path, names in re.findall(r"(?m)^(?:pub |ghost )*use Rattle\.([\w.]+)\.\{([^}]*)\}", text):
        for name, _, alias in (it.strip().partition(" as ") for it in names.split(",")): found[alias or name] = (path.split("."), name)
    return found


def depth(text): return len(text) - len(text.lstrip(" "))


def definitions(path):
    """The definitions of a file, by name: the line in words, which several may share, and the text."""
    found, words, name, fresh = {}, "", None, False
    for line in text_of(path).split("\n"):
        is_inner = name is not None and depth(line) > depth(found[name][1])
        m = None if is_inner and "record" in found[name][1].split("\n")[0] else HEAD.match(line)
        if m:
            name, fresh = m[1], False
            found[name] = (words, line)
        elif line.startswith(("--", "  --")) and not is_inner:
            words, name, fresh = (words + " " if fresh else "") + line.strip("- "), None, True
        elif line.startswith("module "): name, fresh = None, False
        elif not line.strip() or line.startswith(("use ", "pub use ")): fresh = False
        elif name: found[name] = (found[name][0], found[name][1] + "\n" + line)
    return found


def walk(path, name):
    if (path, name) in seen: return
    here, there = definitions(path), imports(text_of(path))
    below.setdefault(path, set())
    if name not in here: return follow(path, there, name)  # another file's, handed on
    seen.add((path, name))
    for word in words_in(here[name][1]):
        if word in here: walk(path, word)
        else: follow(path, there, word)


def follow(path, there, word):
    if word not in there: return
    (crate, _, *module), name = there[word]
    if not os.path.isdir(f"{TOP}/crates/{crate}"): kit.add((crate, *module, name))
    elif module[0] == "declared": types.add((f"{crate}/src/{module[1]}.rt", module[2]))
    else:
        lower = f"{crate}/specs/{'/'.join(module)}.antt"
        if lower != path: below.setdefault(path, set()).add(lower)
        walk(lower, name)


def ordered(paths, done):
    for path in paths:
        if path not in done: ordered(sorted(below[path]), done), done.append(path)
    return done


def main():
    root = text_of(ROOT)
    for word in words_in(" ".join(re.findall(r"ensures \w+ \{(.*?)\}\n", root, re.S))): follow(ROOT, imports(root), word)
    rank = [it.split(":")[0] for it in open(f"{TOP}/crates.txt", encoding="utf-8")]
    files = [it for it in ordered(sorted(below, key=lambda it: (rank.index(it.split("/")[0]), it)), []) if it in {path for path, _ in seen}]
    out = [f"{len(seen)} definitions in {len(files)} files. They speak of {len(types)} types of the code, and of {len(kit)} words of the kit.", ""]
    for path in files:
        rows = {}
        for name, (words, _) in definitions(path).items():
            if (path, name) in seen: rows.setdefault(words, []).append(f"`{name}`")
        out += [f"**`{path}`** {title_of(path)}".strip(), "", *(f"- {', '.join(names)}: {words}" for words, names in rows.items()), ""]
    homes = sorted({it for it, _ in types})
    out += ["**Types of the code**", "", *(f"- `{it}`: {', '.join(f'`{n}`' for p, n in sorted(types) if p == it)}" for it in homes)]
    text, page = "\n".join(out) + "\n", open(PAGE, encoding="utf-8").read().partition(MARK)
    if sys.argv[1:] == []: print(text, end="")
    if sys.argv[1:] == ["--write"]: open(PAGE, "w", encoding="utf-8").write(page[0] + MARK + text)
    if sys.argv[1:] == ["--check"]:
        print(out[0] if page[2] == text else "docs/READING.md has another list: python3 docs/reading.py --write")
        sys.exit(page[2] != text)


main()
