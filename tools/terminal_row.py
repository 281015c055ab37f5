#!/usr/bin/env python3
"""Drives examples/terminal.py in a terminal of tmux: twenty keys and more, each screen of which is the one said here, also after a change of
size. It names each screen that is another one, with what came; status 1 where there is one.

    python3 tools/terminal_row.py CORE
"""
import os, shutil, subprocess, sys, tempfile, time

TOP = os.path.dirname(os.path.dirname(os.path.abspath(__file__)))
# a core of three lines, one of which is not valid any more once something was typed
STUB = """#!/usr/bin/env python3
import json, sys
def say(**it): print(json.dumps(it), flush=True)
def update(*ops): say(method="update", params={"update": {"ops": ops, "pristine": True}, "view_id": "view-id-1"})
def line(text, ln): return {"lines": [{"cursor": [], "ln": ln, "styles": [], "text": text}], "n": 1, "op": "ins"}
for asked in map(json.loads, sys.stdin):
    say(id=asked["id"], result="view-id-1" if asked["method"] == "new_view" else None)
    if asked["method"] == "new_view": update(line("a\\n", 1), line("b\\n", 2), line("c", 3))
    if asked["params"].get("method") == "insert": update({"n": 1, "op": "copy"}, {"n": 1, "op": "skip"}, {"n": 1, "op": "invalidate"}, {"n": 1, "op": "copy"})
"""
failed = sessions = 0


def tmux(*words): return subprocess.run(["tmux", "-u", "-L", f"row-{os.getpid()}-{sessions}", "-f", "/dev/null", *words], capture_output=True, encoding="utf-8")


def shows(name, wanted, *keys):
    """Whether these keys lead to this screen, within thirty seconds; blanks at the ends of lines do not count."""
    global failed
    if keys: tmux("send-keys", *keys)
    for _ in range(300):
        found = [line.rstrip() for line in tmux("capture-pane", "-p").stdout.rstrip("\n").split("\n")]
        if found == wanted: return
        time.sleep(0.1)
    failed = 1
    print(f"terminal: {name}: another screen:", *found, sep="\n  ")


def begins(core):
    """The editor with this core, in a terminal of 40 columns and six lines."""
    global sessions
    sessions += 1
    command = f"python3 {TOP}/examples/terminal.py {core}"
    return tmux("new-session", "-d", "-x", "40", "-y", "6", "env", "TERM=xterm-256color", "LC_ALL=C.UTF-8", "sh", "-c", command)


def main():
    if not shutil.which("tmux"): sys.exit(print("terminal: no tmux here, so no screen was looked at"))
    started = begins(os.path.abspath(sys.argv[1]))
    if started.returncode: sys.exit(print(f"terminal: none could be started here, so no screen was looked at: {started.stderr.strip()}"))
    try:
        shows("an empty text", ["    1", "", "", "", "", "(no file)  1 lines"])
        shows("typed", ["    1 naïve", "    2 漢字", "", "", "", "(no file) *  2 lines"], *"naïve", "Enter", "漢", "字")
        shows("a word cut and pasted", ["    1 漢字naïve", "    2", "", "", "", "(no file) *  2 lines"], "S-Home", "C-x", "Up", "C-v")
        shows("undone", ["    1 naïve", "    2", "", "", "", "(no file) *  2 lines"], "C-z")
        shows("more lines than fit", ["    4 c", "    5 d", "    6 e", "", "", "(no file) *  6 lines"], "Down", "a", *[key for it in "bcde" for key in ("Enter", it)])
        tmux("resize-window", "-x", "24", "-y", "9")
        shows("at another size", ["    4 c", "    5 d", "    6 e", "", "", "", "", "", "(no file) *  6 lines"], "Up")
        shows("it asks before it leaves", ["    4 c", "    5 d", "    6 e", "", "", "", "", "", "the text is not saved;"], "C-q")
        tmux("kill-server")
        with tempfile.TemporaryDirectory() as folder:
            with open(f"{folder}/core", "w", encoding="utf-8") as it: it.write(STUB)
            os.chmod(f"{folder}/core", 0o755)
            begins(f"{folder}/core")
            shows("lines of another core", ["    1 a", "    2 b", "    3 c", "", "", "(no file)  3 lines"])
            shows("one that is not valid", ["    1 a", "", "    3 c", "", "", "(no file)  3 lines"], "x")
    finally: tmux("kill-server")
    sys.exit(failed)


main()
