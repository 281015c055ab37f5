#!/usr/bin/env python3
"""What a key costs: runs the built core over pipes and prints tables, in microseconds and in echoes. An echo is the same line through
`cat` at the same time, taken by turns with it, so that load moves both.

    python3 examples/cost.py CORE                                      texts of 1 KB, 1 MB and 10 MB: at most two minutes on a quiet machine
    python3 examples/cost.py CORE --sizes 1e3,1e6,1e7,1e8 --limit 120  texts of these lengths in bytes, with so many seconds for each
    python3 examples/cost.py CORE --only insert,undo                   these entries alone
    python3 examples/cost.py CORE --write                              puts the tables into docs/COSTS.md besides

Each series of entries ends with a look at the screen that the updates rebuild: it has the lines that the text has there, or its figures
count for nothing (`wrong`). What was not measured within its time is `late`. Both miss each goal.
"""
import argparse, datetime, json, math, os, platform, re, resource, select, shutil, subprocess, sys, threading, time

VIEW, WIDTH, WINDOW, PAGE = "view-id-1", 40, 10, 1 << 22
WIDTHS, STEPS, SAMPLES = (0, 80), 1000, 3
CARETS = {"insert at 100 carets": 100, "insert at 10,000 carets": 10000}
ENTRIES = [
    "insert", "delete_backward", "insert_newline", "undo", "redo", "move_down", "move_word_right", "scroll", "request_lines", "click",
    "find", "find_next", "insert while searching", *CARETS,
]
# what the tables are held against. An echo takes 16 µs where a scroll of a window takes 60 and an undo 40
ECHOES = {"insert": 2.5, "scroll": 60 / 16, "undo": 40 / 16}
EXPONENT, LONG_LINE, RATE, MEMORY, BYTES = 0.02, 500e-6, 250000, 2.3, 430
LATE, WRONG, NONE = "late", "wrong", "–"


class Late(Exception): """Something was not there in time."""
class Refused(Exception): """The core refused a line, or ended."""


class Script:
    """The lines that are sent, and what the script knows of the text: one of lines of 40 characters, or one line. Its home is a place in
    the middle, where characters are typed; it may have further carets, at each of which as many letters are typed."""

    def __init__(self, shape, size, width):
        self.width, self.is_line, self.ids = width, shape == "line", 0
        if self.is_line: self.lines = [("abcdefg " * (size // 8 + 1))[:size]]
        else: self.lines = [f"{at:08} abcdefg hijklmn opqrstu vwxyzab".ljust(WIDTH, "-") + "\n" for at in range(max(size // (WIDTH + 1), 24))]
        self.size = sum(map(len, self.lines))
        self.row = 0 if self.is_line else len(self.lines) // 2
        # the first line of the window, as laid out, and the offset of the home in its line
        self.first = self.size // 2 // width if self.is_line and width else self.row
        self.col = self.first * width + WIDTH // 2 if self.is_line else WIDTH // 2
        self.words = ("cdef", "defg") if self.is_line else ("hijklm", "opqrst")
        self.typed, self.carets, self.many = "", {}, 0

    def line(self, method, params):
        """A line of the front end, whose id counts up."""
        self.ids += 1
        return json.dumps({"id": self.ids, "method": method, "params": params}).encode() + b"\n"

    def edit(self, method, params=None):
        return self.line("edit", {"view_id": VIEW, "method": method, **({} if params is None else {"params": params})})

    def gesture(self, row, col, ty):
        """At an offset of a line of the text. A long line of words of eight letters is laid out in lines that are full."""
        if self.is_line and self.width: row, col = divmod(col, self.width)
        return self.edit("gesture", {"line": row, "col": col, "ty": ty})

    def scroll(self, down=0):
        return self.edit("scroll", [self.first + down, self.first + down + WINDOW])

    def home(self):
        return self.gesture(self.row, self.col, "point_select")

    def opening(self):
        whole = "".join(self.lines)
        if self.width: yield self.line("modify_user_config", {"domain": "general", "changes": {"wrap_width": self.width}})
        yield self.line("new_view", {})
        for start in range(0, len(whole), PAGE): yield self.edit("insert", {"chars": whole[start : start + PAGE]})
        yield self.scroll()
        yield self.home()

    def past(self, kind):
        """Steps that leave the text as it is: undone ones, or groups that are collected but for the last twenty."""
        for _ in range(STEPS if kind == "undone" else STEPS // 2 + 20 if kind == "collected" else 0):
            yield self.edit("insert", {"chars": "x"})
            yield self.edit("undo" if kind == "undone" else "delete_backward")

    def places(self, count):
        """Places for so many carets beside the home, or None where the text has too few."""
        if self.is_line: return [(0, self.col + 3 * at + 3) for at in range(count)] if self.col + 3 * count < self.size else None
        # below the home, so that what is typed leaves the first line of the window where it is
        rows = range(self.row + 1, min(self.row + 1 + count, len(self.lines)))
        each = -(-count // len(rows))
        return [(row, 2 * at + 2) for row in rows for at in range(each)][:count] if each < 18 else None

    def prepared(self, name, count):
        """The lines before a series, or None where there is no such series here."""
        if name == "delete_backward": self.typed = "".join("\n" if at % 200 == 199 else "x" for at in range(count))
        if name in ("undo", "redo"): self.typed = "x"
        lines = [self.edit("insert", {"chars": self.typed})] if self.typed else []
        if name == "redo": lines.append(self.edit("undo")); self.typed = ""
        if name in ("find_next", "insert while searching"): lines.append(self.edit("find", {"chars": self.words[0]}))
        if name in CARETS:
            places = self.places(CARETS[name] - 1)
            if places is None: return None
            for row, col in places: self.carets.setdefault(row, []).append(col)
            lines += [self.gesture(row, col, "toggle_sel") for row, col in places]
        return lines

    def entry(self, name, at):
        """The `at`-th line of a series, which is timed, and the lines that go back behind it."""
        if name in ("insert", "insert while searching"): self.typed += "x"; return self.edit("insert", {"chars": "x"}), []
        if name in CARETS: self.typed += "x"; self.many += 1; return self.edit("insert", {"chars": "x"}), []
        if name == "delete_backward": self.typed = self.typed[:-1]; return self.edit(name), []
        if name == "insert_newline": self.typed += "\n"; return self.edit(name), []
        if name == "scroll": return self.scroll(WINDOW if at % 2 == 0 else 0), []
        if name == "request_lines": return self.edit(name, [self.first + WINDOW, self.first + 2 * WINDOW]), []
        if name == "click": return self.gesture(self.row + (0 if self.is_line else at % 5), self.col + at % 7, "point_select"), []
        if name == "find": return self.edit(name, {"chars": self.words[at % 2]}), []
        if name == "find_next": return self.edit(name, {"wrap_around": True}), []
        back = {"undo": "redo", "redo": "undo", "move_down": "move_up", "move_word_right": "move_word_left"}
        return self.edit(name), [self.edit(back[name])]

    def restored(self):
        """The lines after which text, caret and search are as they were."""
        lines = [self.edit("delete_backward") for _ in self.typed]
        self.typed, self.carets, self.many = "", {}, 0
        return [*lines, self.edit("find", {"chars": ""}), self.home()]

    def content(self, row):
        """A line of the text as it is."""
        line = self.lines[row]
        put = [(col, "x" * self.many) for col in self.carets.get(row, [])] + ([(self.col, self.typed)] if row == self.row else [])
        for col, chars in sorted(put, reverse=True): line = line[:col] + chars + line[col:]
        return line

    def is_shown(self, screen):
        """Whether the window has the text that stands there, in lines that are no wider than they may be."""
        lines = screen.window(self.first)
        if not lines or None in lines: return False
        shown, rows = "".join(lines), range(self.row, min(self.row + WINDOW, len(self.lines)))
        text = "".join(map(self.content, rows))
        if self.is_line and self.width: text = self.content(0)[self.first * self.width :]
        if self.width and max(len(line.rstrip(" \n")) for line in lines) > self.width: return False
        return text.startswith(shown) and (len(lines) == WINDOW or text == shown)


class Screen:
    """The lines that a front end has: texts, and for lines that are not valid how many they are."""

    def __init__(self): self.runs = []

    def take(self, ops):
        """An update, as front_end.py takes one."""
        old, new = self.runs[::-1], []
        for op in ops:
            part, left = [], op["n"] if op["op"] in ("copy", "update", "skip") else 0
            while left:
                run = old.pop()
                if isinstance(run, int) and run > left: old.append(run - left); run = left
                left -= run if isinstance(run, int) else 1
                part.append(run)
            if op["op"] == "ins": part = [line["text"] for line in op["lines"]]
            if op["op"] == "invalidate": part = [op["n"]]
            if op["op"] != "skip": new += part
        self.runs = new

    def window(self, first):
        """The lines of the window, None for one that is not valid."""
        found, at = [], 0
        for run in self.runs:
            count = run if isinstance(run, int) else 1
            found += [None if isinstance(run, int) else run] * (min(at + count, first + WINDOW) - max(at, first))
            at += count
        return found


class Core:
    """A core behind pipes."""

    def __init__(self, words, end):
        self.process = subprocess.Popen(words, stdin=subprocess.PIPE, stdout=subprocess.PIPE, bufsize=0)
        self.out, self.end, self.got, self.bytes, self.screen = self.process.stdout.fileno(), end, bytearray(), 0, Screen()

    def more(self):
        if not select.select([self.out], [], [], max(self.end - time.monotonic(), 0))[0]: raise Late()
        found = os.read(self.out, 1 << 20)
        if not found: raise Refused("the core has ended")
        self.got += found

    def timed(self, line):
        """Seconds until the piece of this line is read."""
        mark = b'{"id":%d,' % json.loads(line)["id"]
        start = time.perf_counter()
        self.process.stdin.write(line)
        while not self.got.endswith(b"\n") or self.got.find(mark) < 0 and self.got.find(b'{"error":') < 0: self.more()
        return time.perf_counter() - start

    def ask(self, lines, last):
        """Sends lines on a thread, as a core that nobody reads stops at a full pipe, and reads all that they make it write. The answer of
        the last one, which has no effect, is the mark."""
        mark = b'{"id":%d,"result":null}\n' % json.loads(last)["id"]
        whole = b"".join([*lines, last])
        writer = threading.Thread(target=self.write, args=(whole,), daemon=True)
        writer.start()
        while not self.got.endswith(mark): self.more()
        writer.join()
        for line in bytes(self.got).splitlines():
            message = json.loads(line)
            if "error" in message: raise Refused(message["error"])
            if message.get("method") == "update": self.screen.take(message["params"]["update"]["ops"])
        self.bytes += len(self.got) - len(mark)
        self.got.clear()

    def write(self, whole):
        try:
            at = 0
            while at < len(whole): at += os.write(self.process.stdin.fileno(), whole[at : at + (1 << 16)])
        except OSError: pass

    def processor(self):
        """Seconds of the processor so far, or None where the system does not say."""
        found, tasks = 0, f"/proc/{self.process.pid}/task"
        try:
            for task in os.listdir(tasks):
                with open(f"{tasks}/{task}/schedstat") as it: found += int(it.read().split()[0])
        except OSError: return None
        return found / 1e9

    def memory(self):
        """Bytes in memory, or None where the system does not say."""
        try:
            with open(f"/proc/{self.process.pid}/status") as it: return int(re.search(r"VmRSS:\s+(\d+)", it.read())[1]) * 1024
        except OSError: return None

    def close(self):
        self.process.kill()
        self.process.wait()
        self.process.stdin.close(), self.process.stdout.close()


class Echo:
    """A `cat` behind pipes."""

    def __init__(self): self.process = subprocess.Popen(["cat"], stdin=subprocess.PIPE, stdout=subprocess.PIPE, bufsize=0)

    def timed(self, line):
        start, left = time.perf_counter(), len(line)
        self.process.stdin.write(line)
        while left: left -= len(os.read(self.process.stdout.fileno(), 1 << 20))
        return time.perf_counter() - start

    def close(self):
        self.process.stdin.close(), self.process.wait(), self.process.stdout.close()


def part(values, share):
    return sorted(values)[min(int(len(values) * share), len(values) - 1)]


class Situation:
    """Texts of one shape and size at one width with one past. `figures` has for each entry what it took, or why that is not known."""

    def __init__(self, shape, size, width, past=""):
        self.shape, self.size, self.width, self.past, self.figures, self.memory = shape, size, width, past, {}, None

    def name(self):
        size = f"{self.size / 1e6:g} MB" if self.size >= 1e6 else f"{self.size / 1e3:g} KB"
        return f"one line of {size}" if self.shape == "line" else f"{size}, {STEPS:,} steps {self.past}" if self.past else size

    def opened(self, words, end):
        script, core = Script(self.shape, self.size, self.width), Core([words.core, "--no-plugins", "alone"], end)
        try:
            core.ask(list(script.opening()), script.line("client_started", {}))
            self.memory = self.memory or core.memory()
            core.ask(list(script.past(self.past)), script.line("client_started", {}))
        except (Late, Refused):
            core.close()
            raise
        return script, core

    def measure(self, words):
        """Takes each entry in its turn. A session that is late or wrong is given up, and the next entry begins another one."""
        end, core = time.monotonic() + words.limit, None
        for name in words.only:
            try:
                if time.monotonic() > end: raise Late()
                if core is None: script, core = self.opened(words, end)
                core.end = min(end, time.monotonic() + words.limit / 4)
                self.figures[name] = self.series(core, script, name, words)
            except Late: self.figures[name] = LATE
            except Refused as it: self.figures[name] = f"{WRONG}: {it}"
            if core and isinstance(self.figures[name], str) and self.figures[name] != NONE: core = core.close()
            print(f"{name}, {self.name()}, width {self.width}: {said(self.figures[name])}", flush=True)
        if core: core.close()

    def series(self, core, script, name, words):
        """Awaited entries of one kind, by turns with echoes."""
        before = script.prepared(name, words.count)
        if before is None: return NONE
        core.ask(before, script.line("client_started", {}))
        echo, keys, echoes, used, core.bytes = Echo(), [], [], 0, 0
        stop, bytes_back = time.monotonic() + words.series, 0
        try:
            while len(keys) < words.count and (len(keys) < SAMPLES or time.monotonic() < stop):
                line, back = script.entry(name, len(keys))
                echoes.append(echo.timed(line))
                began = core.processor()
                keys.append(core.timed(line))
                ended = core.processor()
                used = None if used is None or ended is None else used + ended - began
                core.ask([], script.line("client_started", {}))
                told = core.bytes
                if back: core.ask(back, script.line("client_started", {}))
                bytes_back += core.bytes - told
        finally: echo.close()
        out = (core.bytes - bytes_back) / len(keys)
        core.ask([script.scroll()], script.line("client_started", {}))
        if not script.is_shown(core.screen): return WRONG
        line = len(script.content(script.row).encode())
        core.ask(script.restored(), script.line("client_started", {}))
        return Figure(keys, echoes, out, line, None if used is None else used / len(keys))


class Figure:
    """What a series took: median and 99th percentile of its entries, and the median echo; bytes of a piece and of its line; processor seconds."""

    def __init__(self, keys, echoes, out, line, used):
        self.key, self.key99, self.echo = part(keys, 0.5), part(keys, 0.99), part(echoes, 0.5)
        self.out, self.line, self.used, self.count = out, line, used, len(keys)


def said(it):
    if not isinstance(it, Figure): return it
    return f"median {micro(it.key)} µs, {it.key / it.echo:.1f} echoes; 99th {micro(it.key99)} µs, {it.key99 / it.echo:.1f} echoes; processor {micro(it.used)} µs; {it.out:.0f} bytes; {it.count} taken"


def micro(seconds):
    return "-" if seconds is None else f"{seconds * 1e6:.0f}" if seconds >= 1e-5 else f"{seconds * 1e6:.1f}"


def exponents(name, situations):
    """Between each two sizes of texts without a past: the log of the ratio of medians by that of sizes. None where one is not known."""
    found, sized = [], [it for it in situations if it.shape == "lines" and not it.past]
    for less, more in zip(sized, sized[1:]):
        figures = less.figures.get(name), more.figures.get(name)
        known = all(isinstance(it, Figure) for it in figures)
        found.append((less.size, math.log(figures[1].key / figures[0].key) / math.log(more.size / less.size) if known else None))
    return found


def missed(name, situations):
    """Which goals an entry misses."""
    found, all_known = [], [it for it in situations if it.figures.get(name) != NONE]
    figures = [it.figures[name] for it in all_known]
    if any(it == LATE for it in figures): found.append("time")
    if any(str(it).startswith(WRONG) for it in figures): found.append("screen")
    known = [(it, it.figures[name]) for it in all_known if isinstance(it.figures[name], Figure)]
    if any(it.shape == "lines" and not it.past and figure.key / figure.echo > ECHOES.get(name, math.inf) for it, figure in known): found.append("echoes")
    if any(size >= 1e6 and it is not None and it > EXPONENT for size, it in exponents(name, situations)): found.append("exponent")
    if name == "insert" and any(it.shape == "line" and figure.key > LONG_LINE for it, figure in known): found.append("long line")
    if name == "insert" and any(figure.out > figure.line + BYTES for _, figure in known): found.append("bytes")
    return found


def cell(it):
    if not isinstance(it, Figure): return NONE if it is None else it.split(":")[0]
    return f"{micro(it.key)}, {micro(it.key99)}; {it.key / it.echo:.1f}, {it.key99 / it.echo:.1f}; {micro(it.used)}"


def awaited(words, empty):
    """The lines of the first table."""
    made = []
    for width in WIDTHS:
        plain = [Situation("lines", size, width) for size in words.sizes]
        later = [Situation("lines", words.past, width, past) for past in ("undone", "collected")]
        made.append([*plain, *later, *[Situation("line", size, width) for size in words.long]])
    for situations in made:
        for it in situations: it.measure(words)
    yield "| entry | width | " + " | ".join(it.name() for it in made[0]) + " | exponents | bytes of a piece | missed |"
    yield "|---" * (len(made[0]) + 5) + "|"
    for name in words.only:
        for width, situations in zip(WIDTHS, made):
            figures = [it.figures[name] for it in situations]
            powers = ", ".join("-" if it is None else f"{it:.2f}" for _, it in exponents(name, situations))
            most = max((it.out for it in figures if isinstance(it, Figure)), default=None)
            yield f"| {name} | {width} | " + " | ".join(map(cell, figures)) + f" | {powers} | {'-' if most is None else f'{most:.0f}'} | {', '.join(missed(name, situations))} |"
    yield "| memory: bytes a byte | | " + " | ".join(beside(it, empty) for it in made[0]) + f" | | | {'memory' if any(is_fat(it, empty) for it in made[0]) else ''} |"


def beside(it, empty):
    """Memory of an opened text, less that of an empty session, by the bytes of the text."""
    if it.size < 1e6: return NONE
    return LATE if it.memory is None or empty is None else f"{(it.memory - empty) / it.size:.1f}"


def is_fat(it, empty):
    return it.size >= 1e6 and not it.past and (it.memory is None or empty is None or (it.memory - empty) / it.size > MEMORY)


def lines_of(name, count):
    """The lines of a session with a short text, without and with so many entries of a kind that nobody awaits; None where it has none."""
    script = Script("lines", 1000, 0)
    before, prepared = list(script.opening()), script.prepared(name, count)
    if prepared is None: return None
    before += prepared
    after = []
    for at in range(count):
        line, back = script.entry(name, at)
        # lines stay short
        if name.startswith("insert") and at % 40 == 39: line = script.edit("insert_newline")
        after += [line, *back]
    return b"".join(before), b"".join(before + after), len(after)


def run_of(command, whole):
    """Seconds of a run, and its user seconds."""
    before, start = resource.getrusage(resource.RUSAGE_CHILDREN), time.perf_counter()
    subprocess.run(command, input=whole, stdout=subprocess.DEVNULL, check=True)
    took, after = time.perf_counter() - start, resource.getrusage(resource.RUSAGE_CHILDREN)
    return took, after.ru_utime - before.ru_utime


def instructions(core, whole):
    """The instructions of a run, counted by a profiler, or None where there is none: a number that load does not move."""
    if not shutil.which("valgrind"): return None
    command = ["valgrind", "--tool=callgrind", "--callgrind-out-file=/dev/null", core, "--no-plugins", "alone"]
    ran = subprocess.run(command, input=whole, stdout=subprocess.DEVNULL, stderr=subprocess.PIPE)
    counted = re.search(rb"Collected : (\d+)", ran.stderr)
    return int(counted[1]) if counted and ran.returncode == 0 else None


def pipelined(words):
    """The lines of the second table: entries of a short text that nobody awaits, less a run without them."""
    yield "| entry | entries a second | `cat` | user µs | instructions | missed |"
    yield "|---|---|---|---|---|---|"
    for name in words.only:
        found = lines_of(name, words.many)
        if found is None: continue
        before, whole, count = found
        # the least of three runs each
        runs = [[run_of([words.core, "--no-plugins", "alone"], it) for _ in range(3)] for it in (before, whole)]
        took, used = (min(it[at] for it in runs[1]) - min(it[at] for it in runs[0]) for at in (0, 1))
        echo = min(run_of(["cat"], whole)[0] for _ in range(3))
        few = lines_of(name, 100)
        counted = [instructions(words.core, it) for it in few[:2]]
        each = "-" if None in counted else f"{(counted[1] - counted[0]) / few[2]:.0f}"
        # a run that its own noise hides is not known
        rate = f"{count / took:.0f}" if took > 0.2 * min(it[0] for it in runs[0]) else LATE
        goal = "rate" if name == "insert" and (rate == LATE or count / took < RATE) else ""
        yield f"| {name} | {rate} | {count / echo:.0f} | {micro(max(used / count, 0))} | {each} | {goal} |"


def empty_memory(core):
    it = Core([core, "--no-plugins", "alone"], time.monotonic() + 5)
    script = Script("lines", 0, 0)
    it.ask([script.line("new_view", {})], script.line("client_started", {}))
    found = it.memory()
    it.close()
    return found


def tables(words):
    """The lines of the page."""
    start = time.monotonic()
    yield (f"What an entry takes over pipes ({datetime.date.today():%-d %B %Y}, {os.cpu_count()} processors, {platform.machine()}, a load of {os.getloadavg()[0]:.1f} at the"
        " start): `examples/cost.py` made this table. A text is lines of 40 characters, the caret stands in its middle. An echo is the same line through `cat`, by turns.")
    yield ("In a cell: median and 99th percentile of an awaited entry in µs; both in median echoes; processor time in µs. `late` was not measured within its time, `wrong`"
        " ended with a wrong screen, – does not exist there. Exponents are between each two sizes. Bytes are those of the greatest mean.")
    yield ""
    yield from awaited(words, empty_memory(words.core))
    yield ""
    yield (f"Goals: echoes (an awaited `insert` {ECHOES['insert']}, a `scroll` {ECHOES['scroll']:.2f}, an `undo` {ECHOES['undo']}), exponents from 1 MB on {EXPONENT}, an `insert` into one long line"
        f" {LONG_LINE * 1e6:.0f} µs, its bytes those of the line and {BYTES}, memory {MEMORY} bytes a byte of a text (typed in here), {RATE:,} insertions a second.")
    yield ""
    yield "Entries that nobody awaits, in a text of 1 KB at width 0, less a run without them; where an entry needs one that goes back, the mean of both:"
    yield ""
    yield from pipelined(words)
    yield ""
    yield f"All this took {time.monotonic() - start:.0f} s, the load was {os.getloadavg()[0]:.1f} at the end."


def write(lines):
    """Puts the tables between their two marks into the page."""
    page = os.path.join(os.path.dirname(os.path.abspath(__file__)), "..", "docs", "COSTS.md")
    with open(page) as it: text = it.read()
    begin, end = "<!-- the table of examples/cost.py -->\n", "<!-- its end -->\n"
    if text.count(begin) != 1 or text.count(end) != 1 or text.index(end) < text.index(begin): sys.exit("docs/COSTS.md has no marks for the table")
    head, tail = text.split(begin)[0], text.split(end)[1]
    with open(page, "w") as it: it.write(head + begin + "\n".join(lines) + "\n" + end + tail)


def sizes(words):
    return [int(float(size)) for size in words.split(",") if size]


def main():
    words = argparse.ArgumentParser(description=__doc__.split("\n")[0])
    words.add_argument("core")
    words.add_argument("--sizes", default="1e3,1e6,1e7", type=sizes)
    words.add_argument("--long", default="170000", type=sizes, help="lengths of one long line")
    words.add_argument("--past", default=10000, type=lambda it: int(float(it)), help="the length of a text with a past")
    words.add_argument("--only", default=ENTRIES, type=lambda it: it.split(","), help=f"of {', '.join(ENTRIES)}")
    words.add_argument("--count", default=100, type=int, help="how many awaited entries of each kind")
    words.add_argument("--many", default=2000, type=int, help="how many entries that nobody awaits")
    words.add_argument("--series", default=0.2, type=float, help="seconds after which a series ends")
    words.add_argument("--limit", default=5.0, type=float, help="seconds for each text")
    words.add_argument("--write", action="store_true")
    given = words.parse_args()
    for name in given.only:
        if name not in ENTRIES: sys.exit(f"no entry is named {name}")
    lines = list(tables(given))
    print("\n".join(["", *lines]))
    if given.write: write(lines)


if __name__ == "__main__": main()
