#!/usr/bin/env python3
"""Which clause tells of each answer of a public call that is not its plain value: the page CAUSES.md, made from the sources.

    python3 docs/causes.py --write    makes the page
    python3 docs/causes.py            says whether the page is another one, and names each call of which no clause tells; status 1 for either
"""
import collections, glob, os, re, sys

TOP = os.path.dirname(os.path.dirname(os.path.abspath(__file__)))
PAGE = f"{TOP}/docs/CAUSES.md"
NOT_SHIPPED = re.compile(r".*_(cases|laws|load)$|case_(lines|scripts)$|plain_(history|collection|laws)$")
MEMORY = ("NoMemory", "AllocError")
ANSWERS = {  # the enums that a call answers by, whose clauses tell of every variant
    "Reply": "`Refused`, `SinkFault`, `Closed`, `NoMemory`", "Answer": "`Nothing`, `NoMemory`", "Took": "`Fault`, `Closed`, `NoMemory`",
    "Pulled": "`End`, `Failed`", "Pushed": "`Failed`", "Shelved": "`Absent`, `Failed`, `NoMemory`", "Stored": "`Failed`, `NoMemory`",
    "Stepped": "`Ends`", "After": "`Over`"}
HEAD = """# What a call answers beside its value

Each public call of the libraries that can answer something else than its value, and the clauses on it that tell of that answer: when it comes,
and what it leaves. `docs/causes.py` makes this page from the sources, and the gate says so where the page is another one or no clause tells.
Of want of memory no clause says when it comes: {memory} calls have it as their only other answer. Those of them that change what they
are handed are the second table, with the clause that says what is left. `contract` is a call's one clause without a name.
"""


def behind(text, at):
    """The place behind the bracket that closes the one at this place."""
    depth = 0
    while True:
        depth += {"(": 1, "{": 1, ")": -1, "}": -1}.get(text[at], 0)
        at += 1
        if not depth: return at


def functions(text):
    """The public functions of a source and those of its public traits: what each belongs to, its name, what it takes, gives and ensures."""
    blocks = re.compile(r"(?m)^(?:(pub trait) |impl(?:<.*?>)? (?:\w+(?:<.*?>)? for )?)(\w+).*|^\}$|^ *(pub )?fn (\w+)")
    owner = trait = ""
    for found in blocks.finditer(text):
        if not found[4]: trait, owner = found[1], found[2] or ""
        elif found[3] or trait:
            at = text.index("(", found.end())
            end = behind(text, at)
            takes, clauses = text[at:end], []
            gives = re.compile(r"\s*(?:->\s*(.*?))?\s*(?=\b(?:requires|ensures|where)\b|\{|;)", re.S).match(text, end)
            at = gives.end()
            while clause := re.compile(r"\s*(?:where\s[^{]*?)?(requires|ensures) ?(\w*) ?(?=\{)").match(text, at):
                at = behind(text, clause.end())
                if clause[1] == "ensures": clauses.append((clause[2] or "contract", text[clause.end() + 1:at - 1]))
            yield owner, found[4], takes, " ".join((gives[1] or "").split()), clauses


def error(gives):
    """The error of a `Result`, as it is written."""
    return re.search(r", (\([^()]*\)|[^,]*)>$", gives)[1]


def row(owner, gives, clauses):
    """The other answers of a call and the clauses that tell of them; none where want of memory is the only one."""
    kind = re.match(r"\w*", gives)[0]
    if kind == "Option": return "`None`", [name for name, text in clauses if "result" in text]
    if kind in ANSWERS and kind != owner: return ANSWERS[kind], [name for name, text in clauses]
    if kind != "Result" or error(gives) in MEMORY: return None
    other = "what was handed in" if any(re.search(r"IfErr result \(λ (back|given)", text) for _, text in clauses) else f"`{error(gives)}`"
    return other, [name for name, text in clauses if re.search(r"Err|OnOk|IsOk|(?<!IfOk )result\b", text)]


rows, changing, untold, memory = collections.defaultdict(list), collections.defaultdict(list), [], 0
for path in sorted(glob.glob(f"{TOP}/crates/*/src/*.rt")):
    crate, module = path.split("/")[-3], os.path.basename(path)
    is_program = os.path.exists(f"{TOP}/crates/{crate}/src/main.rt")
    if is_program or NOT_SHIPPED.match(crate) or module in ("laws.rt", "rows.rt"): continue
    for owner, name, takes, gives, clauses in functions(open(path, encoding="utf-8").read()):
        call = f"`{owner}::{name}`" if owner else f"`{name}`"
        if told := row(owner, gives, clauses):
            rows[crate].append((call, *told))
            if not told[1]: untold.append(f"{crate}: {call}")
        elif gives.startswith("Result"):
            memory += 1
            left = [it for it, text in clauses if "Err" in text]
            if left and "&mut" in takes: changing[crate].append((call, "want of memory", left))
page = HEAD.format(memory=memory)
for title, table in (("Other answers", rows), ("What want of memory leaves", changing)):
    page += f"\n## {title}\n\n| crate | call | answer | told by |\n|---|---|---|---|\n"
    for crate in (it.split(":")[0] for it in open(f"{TOP}/crates.txt", encoding="utf-8")):
        for call, other, told in table.get(crate, []):
            page += f"| `{crate}` | {call} | {other} | {', '.join(f'`{it}`' for it in told)} |\n"
if sys.argv[1:] == ["--write"]: open(PAGE, "w", encoding="utf-8").write(page)
for it in untold: print(f"{it}: no clause tells of another answer than its value")
stale = not os.path.exists(PAGE) or open(PAGE, encoding="utf-8").read() != page
if stale: print("docs/CAUSES.md: the sources say something else: python3 docs/causes.py --write")
sys.exit(bool(untold) or stale)
