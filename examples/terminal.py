#!/usr/bin/env python3
"""An editor for a terminal, over `curses`. It keeps the lines alone that the core sent it, so a long text costs it what a short one does.

    python3 examples/terminal.py CORE [FILE]    (a FILE that is not there is made where it is saved)

Arrows, Home, End, Page keys, with Shift to select, with Ctrl by words; Backspace, Delete, Tab, Enter; Ctrl-A all, Ctrl-C copy, Ctrl-X cut, Ctrl-V paste,
Ctrl-Z undo, Ctrl-Y redo, Ctrl-F find, Ctrl-N the next match, Ctrl-P the one before, Ctrl-W wrapping, Ctrl-S save, Ctrl-Q leave; a click, the wheel.
"""
import curses, json, os, queue, subprocess, sys, threading, unicodedata
from front_end import after

TAB = 4
MOTIONS = {"UP": "move_up", "DOWN": "move_down", "LEFT": "move_left", "RIGHT": "move_right", "HOME": "move_to_left_end_of_line", "END": "move_to_right_end_of_line"}
FAR = {"LFT": "move_word_left", "RIT": "move_word_right", "HOM": "move_to_beginning_of_document", "END": "move_to_end_of_document"}
SHIFTED = {"UP": "R", "DOWN": "F", "LEFT": "LEFT", "RIGHT": "RIGHT", "HOME": "HOME", "END": "END"}
KEYS = {
    "\x7f": "delete_backward", "\b": "delete_backward", "KEY_BACKSPACE": "delete_backward", "KEY_DC": "delete_forward", "kDC5": "delete_word_forward", "\n": "insert_newline",
    "\r": "insert_newline", "\t": "insert_tab", "\x01": "select_all", "\x1a": "undo", "\x19": "redo", "\x1b": "collapse_selections",
    **{f"KEY_{key}": motion for key, motion in MOTIONS.items()}, **{f"KEY_S{SHIFTED[key]}": motion + "_and_modify_selection" for key, motion in MOTIONS.items()},
    **{f"k{key}5": motion for key, motion in FAR.items()}, **{f"k{key}6": motion + "_and_modify_selection" for key, motion in FAR.items()},
}


class Core:
    """The core behind pipes, and what its front end keeps: the screen of the view, whether the text is as saved, the styles."""

    def __init__(self, program):
        self.process = subprocess.Popen([program, "alone"], stdin=subprocess.PIPE, stdout=subprocess.PIPE)
        self.came, self.sent, self.waits = queue.Queue(), 0, {}
        self.screen, self.pristine, self.styles, self.point, self.told = [], True, {}, None, ""
        threading.Thread(target=self.read, daemon=True).start()

    def read(self):
        """Takes lines until the core ends, on a thread of its own: a core that nobody reads stops at a full pipe."""
        for line in self.process.stdout: self.came.put(json.loads(line))
        self.came.put(None)

    def send(self, method, params, then=None):
        """Sends a line; what it is answered goes to `then`."""
        self.sent += 1
        self.waits[self.sent] = then
        self.process.stdin.write(json.dumps({"id": self.sent, "method": method, "params": params}).encode() + b"\n")
        self.process.stdin.flush()

    def take(self, message):
        """One line of the core."""
        params = message.get("params", {})
        match message.get("method"):
            case "update": self.screen, self.pristine = after(self.screen, params["update"]["ops"]), params["update"]["pristine"]
            case "scroll_to": self.point = params["line"]
            case "def_style": self.styles[params["id"]] = params
            case "alert": self.told = params["msg"]
            case None:
                then = self.waits.pop(message["id"], None)
                if "error" in message: self.told = message["error"]["message"]
                elif then: then(message["result"])


def width_of(char, column):
    """The columns of a character that stands in this one."""
    if char == "\t": return TAB - column % TAB
    return 0 if unicodedata.combining(char) else 2 if unicodedata.east_asian_width(char) in "WF" else 1


class Editor:
    def __init__(self, window, core, path):
        self.window, self.core, self.path, self.view, self.top, self.left = window, core, path, None, 0, 0
        self.wraps, self.kept, self.copied, self.leaves, self.height, self.width = False, "", 0, False, window.getmaxyx()[0] - 1, window.getmaxyx()[1] - 6
        core.send("new_view", {"file_path": path} if path else {}, self.opened)

    def opened(self, view):
        self.view = view
        self.sized()

    def edit(self, method, params=None, then=None):
        if self.view: self.core.send("edit", {"view_id": self.view, "method": method, **({} if params is None else {"params": params})}, then)

    def sized(self):
        """The lines that fit are the window; where lines are wrapped, the columns that fit are the width."""
        self.height, self.width = self.window.getmaxyx()[0] - 1, self.window.getmaxyx()[1] - 6
        self.core.send("modify_user_config", {"domain": "general", "changes": {"wrap_width": max(self.width - 1, 1) if self.wraps else 0}})
        self.scroll(self.top)

    def scroll(self, top):
        self.top = max(0, min(top, len(self.core.screen) - 1))
        self.edit("scroll", [self.top, self.top + self.height])

    def follow(self, line):
        """Takes the window to a line that the core scrolls to."""
        if not self.top <= line < self.top + self.height: self.scroll(line - self.height // 2)

    def asked(self, what):
        """A line of input at the foot, or None where it was left by Escape."""
        typed = ""
        while True:
            self.foot(f"{what}: {typed}")
            key = self.key() or ""
            if key in ("\n", "\r", "\x1b"): return None if key == "\x1b" else typed
            if key in ("\x7f", "\b", "KEY_BACKSPACE"): typed = typed[:-1]
            elif len(key) == 1 and key.isprintable(): typed += key

    def key(self):
        """The next key, as its character or its name, or None after a while."""
        try: got = self.window.get_wch()
        except curses.error: return None
        return got if isinstance(got, str) else curses.keyname(got).decode()

    def save(self):
        path = self.path or self.asked("save as")
        def saved(_): self.path, self.core.told = path, "saved"
        if path and self.view: self.core.send("save", {"view_id": self.view, "file_path": os.path.abspath(path)}, saved)

    def find(self):
        chars = self.asked("find")
        if chars is not None: self.edit("find", {"chars": chars}), self.edit("find_next", {"wrap_around": True})

    def mouse(self):
        _, x, y, _, buttons = curses.getmouse()
        if buttons & (curses.BUTTON4_PRESSED | curses.BUTTON5_PRESSED): return self.scroll(self.top + (3 if buttons & curses.BUTTON5_PRESSED else -3))
        line = self.core.screen[self.top + y] if self.top + y < len(self.core.screen) else None
        at = next((at for at, _, column, wide in self.cells(line) if column + wide > x - 6 + self.left), 1 << 30) if line else 0
        self.edit("gesture", {"line": self.top + y, "col": at, "ty": "point_select"})

    def pressed(self, key):
        """Does what a key says."""
        self.core.told = ""
        acts = {"\x06": self.find, "\x13": self.save, "KEY_RESIZE": self.sized, "KEY_MOUSE": self.mouse}
        if key in acts: acts[key]()
        elif key == "\x11": self.leaves = self.core.pristine or self.asked("the text is not saved; leave? (yes)") == "yes"
        elif key == "\x17":
            self.wraps, self.left = not self.wraps, 0
            self.sized()
        elif key in ("\x03", "\x18"):
            self.edit("copy" if key == "\x03" else "cut", None, lambda chars: setattr(self, "kept", chars))
            self.copied = self.core.sent
        elif key == "\x16":
            while self.copied in self.core.waits and (message := self.core.came.get()): self.core.take(message)  # what was copied last comes first
            self.edit("paste", {"chars": self.kept})
        elif key in ("\x0e", "\x10"): self.edit("find_next" if key == "\x0e" else "find_previous", {"wrap_around": True})
        elif key in ("KEY_PPAGE", "KEY_NPAGE"):
            for _ in range(max(self.height - 1, 1)): self.edit("move_up" if key == "KEY_PPAGE" else "move_down")
        elif key in KEYS: self.edit(KEYS[key])
        elif len(key) == 1 and key.isprintable(): self.edit("insert", {"chars": key})

    def cells(self, line):
        """Each character of a line: its place in bytes, itself, its column and its columns."""
        at = column = 0
        for char in line["text"].rstrip("\n"):
            wide = width_of(char, column)
            yield at, char, column, wide
            at, column = at + len(char.encode()), column + wide

    def looks(self, line):
        """What each byte of a line looks like."""
        found, end = {}, 0
        for start, count, id in zip(*[iter(line["styles"])] * 3):
            style, end = self.core.styles.get(id, {}), end + start + count
            look = {0: curses.A_REVERSE, 1: curses.A_UNDERLINE}.get(id, 0) | (style.get("weight", 0) >= 700) * curses.A_BOLD | style.get("underline", False) * curses.A_UNDERLINE
            for at in range(end - count, end): found[at] = found.get(at, 0) | look
        return found

    def foot(self, text): self.window.addnstr(self.height, 0, text.ljust(self.width + 5), self.width + 5, curses.A_REVERSE)

    def draw(self):
        """Shows each valid line of the window; of one that is not valid nothing is known."""
        self.window.erase()
        caret, screen = None, self.core.screen
        lines = [(row, line) for row, line in enumerate(screen[self.top : self.top + self.height]) if line]
        for row, line in lines:
            for at in line["cursor"]: caret = (row, next((column for byte, _, column, _ in self.cells(line) if byte == at), sum(it[3] for it in self.cells(line))))
        if caret and not self.left <= caret[1] < self.left + self.width: self.left = max(caret[1] - self.width // 2, 0)
        for row, line in lines:
            if "ln" in line: self.window.addstr(row, 0, f"{line['ln']:5}", curses.A_DIM)
            looks = self.looks(line)
            for at, char, column, wide in self.cells(line):
                shown = " " * wide if char == "\t" else char if char.isprintable() else "?"
                if self.left <= column and column + wide <= self.left + self.width: self.window.addstr(row, 6 + column - self.left, shown, looks.get(at, 0))
        self.foot(f"{os.path.basename(self.path or '(no file)')}{'' if self.core.pristine else ' *'}  {len(screen)} lines  {self.core.told}")
        if caret: self.window.move(caret[0], 6 + caret[1] - self.left)
        self.window.refresh()

    def run(self):
        while not self.leaves:
            came = not self.core.came.empty()
            while not self.core.came.empty():
                if (message := self.core.came.get()) is None: return
                self.core.take(message)
            if self.core.point is not None: self.core.point = self.follow(self.core.point)
            if came: self.draw()
            if key := self.key(): self.pressed(key), self.draw()


def main(window):
    curses.raw(), curses.mousemask(curses.ALL_MOUSE_EVENTS), window.timeout(20)
    Editor(window, Core(sys.argv[1]), os.path.abspath(sys.argv[2]) if sys.argv[2:] else None).run()


if __name__ == "__main__":
    if not 2 <= len(sys.argv) <= 3: sys.exit(__doc__)
    curses.wrapper(main)
