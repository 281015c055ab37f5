#!/usr/bin/env python3
"""Stands between a front end that was written for xi and the core: it hands on each line that the core knows, does what else it can by lines
that the core knows, and says on standard error what it passes over.

    python3 examples/xi_bridge.py CORE

It speaks xi's front-end protocol on its own standard input and output, so a front end starts it in place of xi-core. What it knows of that
protocol beyond the core's page is from memory. It ends with the core's status. What it does by several lines is answered once.
"""
import itertools, json, os, queue, subprocess, sys, threading

OWN = "xi_bridge-"  # how the ids of its own lines begin
LINE_ENDS = {"beginning": "move_to_left_end_of_line", "end": "move_to_right_end_of_line"}
PLAIN = {"move_forward": "move_right", "move_backward": "move_left", "cancel_operation": "collapse_selections"}
PLAIN.update({f"move_to_{end}_of_paragraph": motion for end, motion in LINE_ENDS.items()})
PLAIN.update({f"{name}_and_modify_selection": f"{to}_and_modify_selection" for name, to in [*PLAIN.items()] if name != "cancel_operation"})
PAGES = {"scroll_page_down": "move_down", "scroll_page_up": "move_up"}
PAGES.update({f"page_{way}_and_modify_selection": f"move_{way}_and_modify_selection" for way in ("down", "up")})
DELETED_TO = {"delete_to_end_of_paragraph": "move_to_right_end_of_line", "delete_to_beginning_of_line": "move_to_left_end_of_line"}
TEXTS = {"multi_word_select": "word_select", "multi_line_select": "line_select"}  # texts of gestures that the core lacks
WHITE, BLACK = ({"a": 255, "b": shade, "g": shade, "r": shade} for shade in (255, 0))
THEME = {"background": WHITE, "caret": BLACK, "foreground": BLACK, "selection": {"a": 255, "b": 255, "g": 220, "r": 190}}


class Core:
    """The core, and what the bridge keeps of each view: how many lines its window shows, and where its last caret stands."""

    def __init__(self, program):
        table = subprocess.run([program, "--methods"], stdout=subprocess.PIPE, check=True).stdout.splitlines()
        rows = [json.loads(row) for row in table]
        self.methods, self.edits = ({row["name"] for row in rows if row["edit"] is edit} for edit in (False, True))
        self.process = subprocess.Popen([program, "alone"], stdin=subprocess.PIPE, stdout=subprocess.PIPE)
        self.waiting, self.names, self.output = {}, itertools.count(), threading.Lock()
        self.shown, self.carets, self.kept = {}, {}, ""
        self.config = {"tab_size": 4, "translate_tabs_to_spaces": False, "word_wrap": False, "wrap_width": 0}
        self.reader = threading.Thread(target=self.read)
        self.reader.start()

    def knows(self, method, params):
        if method == "edit": return isinstance(params.get("method"), str) and has(self.edits, params["method"])
        return has(self.methods, method)

    def hand(self, raw):
        """Hands a line to the core."""
        self.process.stdin.write(raw.rstrip(b"\n") + b"\n")
        self.process.stdin.flush()

    def say(self, line):
        """Writes a line to the front end."""
        with self.output:
            sys.stdout.buffer.write(json.dumps(line, ensure_ascii=False, separators=(",", ":")).encode() + b"\n")
            sys.stdout.buffer.flush()

    def note(self, method, **params): self.say({"method": method, "params": params})

    def start(self, method, params, then):
        """Sends a line of the bridge's own; `then` gets its answer where the core gives it, before what else comes of the line."""
        name = f"{OWN}{next(self.names)}"
        self.waiting[name] = then
        self.hand(json.dumps({"id": name, "method": method, "params": params}, ensure_ascii=False).encode())

    def ask(self, method, params):
        """Sends a line of the bridge's own and waits for its answer."""
        answers = queue.Queue()
        self.start(method, params, answers.put)
        return answers.get()

    def edit(self, view, method, params=None, result=None):
        """An edit of the bridge's own, whose answer it waits for: the text, or what stands for it where it was refused."""
        return self.ask("edit", {"method": method, "params": params or {}, "view_id": view}).get("result", result)

    def settled(self):
        """Waits until nothing more comes of the lines before."""
        self.ask("client_started", {})

    def read(self):
        """Hands on what the core says but the answers to the bridge's own lines."""
        for line in self.process.stdout:
            said = json.loads(line)
            if "method" not in said and said.get("id") in self.waiting: self.waiting.pop(said["id"])(said)
            else:
                if said.get("method") == "scroll_to": self.carets[said["params"]["view_id"]] = said["params"]["line"], said["params"]["col"]
                with self.output: sys.stdout.buffer.write(line), sys.stdout.buffer.flush()
        os._exit(self.process.wait())


def has(names, name): return name in names or name.startswith("debug_")


class Line:
    """A line of the front end, which is answered once or not at all."""

    def __init__(self, core, line):
        self.core, self.method, self.id = core, line["method"], line.get("id")
        self.params = line["params"] if isinstance(line.get("params"), dict) else {}
        self.view, self.name = self.params.get("view_id"), self.params.get("method")
        self.inner = self.params.get("params")

    def answer(self, result):
        if self.id is not None: self.core.say({"id": self.id, "result": result})

    def answered(self, said, result=None):
        """Answers by what the core said of the bridge's own line, with another result where one is given."""
        if self.id is not None: self.core.say({**said, "id": self.id, **({"result": result} if result != KEEP and "result" in said else {})})
        elif "error" in said: self.core.note("alert", msg=said["error"]["message"])

    def does(self, method, params=None):
        """Does the last of its lines, whose answer is that of the whole, without a text."""
        self.core.start("edit", {"method": method, "params": params if params is not None else {}, "view_id": self.view}, self.silent)

    def silent(self, said):
        if self.id is not None: self.core.say({"error": said["error"], "id": self.id} if "error" in said else {"id": self.id, "result": None})

    def kept(self, said):
        if said.get("result"): self.core.kept = said["result"]


KEEP = object()


def paged(line, motion):
    """A page is as many lines as the window shows."""
    first, last = line.core.shown.get(line.view, (0, 10))
    for _ in range(last - first - 1): line.core.start("edit", {"method": motion, "view_id": line.view}, lambda said: None)
    line.does(motion)


def deleted(line, motion):
    """Selects to an end of the line and cuts, which deletes nothing where nothing is selected."""
    core = line.core
    core.start("edit", {"method": f"{motion}_and_modify_selection", "view_id": line.view}, lambda said: None)
    cut = core.ask("edit", {"method": "cut", "view_id": line.view})
    if line.name == "delete_to_end_of_paragraph": line.kept(cut)
    line.silent(cut)


def duplicated(line):
    """The line of the last caret once more, below it."""
    core = line.core
    core.settled()
    at, col = core.carets.get(line.view, (0, 0))
    core.edit(line.view, "gesture", {"col": col, "line": at, "ty": "line_select"})
    text = core.edit(line.view, "copy", result="")
    core.edit(line.view, "move_right" if text else "collapse_selections")
    line.does("paste", {"chars": text if text.endswith("\n") else "\n" + text})


def sought(line):
    """Looks for what is selected, or for the word at the last caret where nothing is."""
    core, given = line.core, line.inner if isinstance(line.inner, dict) else {}
    core.settled()
    text = core.edit(line.view, "copy", result="")
    if not text and line.name == "selection_for_find":
        at, col = core.carets.get(line.view, (0, 0))
        core.edit(line.view, "gesture", {"col": col, "line": at, "ty": "word_select"})
        text = core.edit(line.view, "copy", result="")
    if text: line.does("find", {"case_sensitive": bool(given.get("case_sensitive")), "chars": text})
    else: line.answer(None)


def gestured(line):
    """A gesture whose kind is an object, or a text of xi's that the core lacks; false where it is none."""
    inner = line.inner if isinstance(line.inner, dict) else {}
    kind, point = inner.get("ty"), {"col": inner.get("col"), "line": inner.get("line")}
    if isinstance(kind, str) and kind in TEXTS: line.does("gesture", {**point, "ty": TEXTS[kind]})
    elif kind == "drag": line.does("drag", [point["line"], point["col"], 0])
    elif isinstance(kind, dict) and "select_extend" in kind: line.does("gesture", {**point, "ty": "range_select"})
    elif isinstance(kind, dict) and isinstance(kind.get("select"), dict):
        word = kind["select"].get("granularity", "point")
        line.does("gesture", {**point, "ty": "toggle_sel" if word == "point" and kind["select"].get("multi") else f"{word}_select"})
    else: return False
    return True


def changed(line):
    """An edit that the bridge does; false where it is none of these."""
    core, name = line.core, line.name
    if name in PLAIN: line.does(PLAIN[name])
    elif name in PAGES: paged(line, PAGES[name])
    elif name in DELETED_TO: deleted(line, DELETED_TO[name])
    elif name == "yank":
        core.settled()
        line.does("paste", {"chars": core.kept})
    elif name == "duplicate_line": duplicated(line)
    elif name in ("selection_for_find", "find_all"): sought(line)
    elif name == "gesture": return gestured(line)
    elif name == "cut": core.start("edit", line.params, lambda said: (line.kept(said), line.answered(said, KEEP)))
    else: return False
    return True


def opened(line, said):
    """A view opened: what front ends for xi wait for."""
    line.answered(said, KEEP)
    if "result" in said: line.core.note("config_changed", changes=line.core.config, view_id=said["result"])


def noticed(line):
    """What the bridge has to know of a line that it hands on."""
    core = line.core
    if line.name == "scroll" and isinstance(line.inner, list) and len(line.inner) == 2 and all(type(it) is int for it in line.inner):
        core.shown[line.view] = line.inner
    if line.method == "modify_user_config" and line.params.get("domain") == "general" and isinstance(line.params.get("changes"), dict):
        core.config.update({key: value for key, value in line.params["changes"].items() if key in core.config})


def taken(core, raw):
    """One line of the front end."""
    try: given = json.loads(raw)
    except ValueError: given = None
    if not isinstance(given, dict) or not isinstance(given.get("method"), str):
        return core.hand(raw)  # the core says what is wrong with it
    line = Line(core, given)
    if line.method == "edit" and isinstance(line.name, str) and changed(line): return
    if line.method == "get_config": return core.start("client_started", {}, lambda said: line.answer(core.config))  # behind the lines before
    if line.method == "new_view": return core.start("new_view", line.params, lambda said: opened(line, said))
    if core.knows(line.method, line.params):
        noticed(line)
        core.hand(raw)
        if line.method == "client_started":
            core.note("available_themes", themes=[])
            core.note("theme_changed", name="plain", theme=THEME)
            core.note("available_plugins", plugins=[])
        return
    name = f"edit {line.name}" if line.method == "edit" else line.method
    print(f"xi_bridge: passed over: {name}", file=sys.stderr, flush=True)
    refusal = {"error": {"code": -32601, "message": f"method not found: {name}"}, "id": line.id}
    if line.id is not None: core.start("client_started", {}, lambda said: core.say(refusal))


def main():
    if len(sys.argv) != 2: sys.exit("usage: xi_bridge.py CORE")
    core = Core(sys.argv[1])
    try:
        for raw in sys.stdin.buffer: taken(core, raw)
        core.process.stdin.close()
    except BrokenPipeError: pass  # the core ended: its reader ends the bridge
    core.reader.join()


if __name__ == "__main__": main()
