#!/usr/bin/env python3
"""A front end: it opens a view, types each line of its own input, and rebuilds the screen from the updates. The keys of a terminal in the
input are commands, and a line of keys alone types no LF.

    printf 'one\\ntwo' | python3 examples/front_end.py CORE             prints the screen, with the caret as | and what is selected in brackets
    printf 'one\\ntwo' | python3 examples/front_end.py CORE 40          wraps the lines at 40 columns
    printf 'one\\ntwo' | python3 examples/front_end.py CORE --script    prints the session, as a script of protocol_cases
    python3 -m doctest examples/front_end.py                          takes updates made by hand, with operations that the core does not send yet
"""
import json, queue, re, subprocess, sys, threading

ARROWS = {"A": "move_up", "B": "move_down", "C": "move_right", "D": "move_left", "H": "move_to_left_end_of_line", "F": "move_to_right_end_of_line"}
WORDS = {"C": "move_word_right", "D": "move_word_left", "H": "move_to_beginning_of_document", "F": "move_to_end_of_document"}
KEYS = {
    "\x7f": "delete_backward", "\x1b[3~": "delete_forward", "\x17": "delete_word_backward", "\x1b[3;5~": "delete_word_forward",
    "\x01": "select_all", "\x03": "copy", "\x18": "cut", "\x16": "paste", "\x1a": "undo", "\x19": "redo",
    **{f"\x1b[{key}": motion for key, motion in ARROWS.items()},
    **{f"\x1b[1;5{key}": motion for key, motion in WORDS.items()},
    **{f"\x1b[1;2{key}": motion + "_and_modify_selection" for key, motion in ARROWS.items()},
    **{f"\x1b[1;6{key}": motion + "_and_modify_selection" for key, motion in WORDS.items()},
}
KEY = re.compile("(" + "|".join(map(re.escape, KEYS)) + ")")

sent, got, screen, answers = [], [], [], queue.Queue()


def request(method, params):
    """Sends a line, whose id is its index, and waits for its answer."""
    sent.append(json.dumps({"id": len(sent), "method": method, "params": params}, ensure_ascii=False))
    core.stdin.write(sent[-1].encode() + b"\n")
    core.stdin.flush()
    answer = answers.get()
    if answer is None or "error" in answer: sys.exit(f"{method}: {answer and answer['error']['message']}")
    return answer["result"]


def taken(lines, ln):
    """Old lines that an operation takes over: where it has an `ln`, those that have a number are numbered from it on."""
    for line in lines:
        if line is not None and "ln" in line and ln is not None: line, ln = {**line, "ln": ln}, ln + 1
        yield line


def restyled(lines, restyles):
    """Old lines with new carets and styles; one that is not valid stays so."""
    return [line and {**line, **restyle} for line, restyle in zip(lines, restyles)]


def after(old, ops):
    """The screen after an update: None is a line that is not valid.

    >>> line = lambda text, ln, *cursor: {"cursor": [*cursor], "ln": ln, "styles": [], "text": text}
    >>> old = [line("a|b", 1, 2), line("cd", 2), None, line("e", 4), line("f", 5)]
    >>> ops = [{"lines": [{"cursor": [], "styles": []}, {"cursor": [1], "styles": [0, 2, 0]}, {"cursor": [], "styles": []}], "ln": 7, "n": 3, "op": "update"}]
    >>> ops += [{"n": 1, "op": "skip"}, {"ln": 9, "n": 1, "op": "copy"}, {"n": 1, "op": "invalidate"}, {"lines": [line("g", 11)], "n": 1, "op": "ins"}]
    >>> [it and (it["ln"], it["text"], it["cursor"], it["styles"]) for it in after(old, ops)]
    [(7, 'a|b', [], []), (8, 'cd', [1], [0, 2, 0]), None, (9, 'f', [], []), None, (11, 'g', [], [])]
    >>> after([line("a", 1, 0), None], [{"lines": [{"cursor": [1], "styles": []}], "n": 1, "op": "update"}])
    [{'cursor': [1], 'ln': 1, 'styles': [], 'text': 'a'}]
    """
    new, at = [], 0
    for op in ops:
        if op["op"] == "ins": new += op["lines"]
        if op["op"] == "invalidate": new += [None] * op["n"]
        if op["op"] == "copy": new += taken(old[at : at + op["n"]], op.get("ln"))
        if op["op"] == "update": new += taken(restyled(old[at : at + op["n"]], op["lines"]), op.get("ln"))
        if op["op"] in ("copy", "update", "skip"): at += op["n"]
    return new


def shown(line):
    """A line without its LF, with its carets, and with brackets around what is selected: the spans with the id 0."""
    text, end, marks = line["text"].rstrip("\n").encode(), 0, [(at, "|") for at in line["cursor"]]
    for start, count, id in zip(*[iter(line["styles"])] * 3):
        end += start + count
        if id == 0: marks += (end - count, "["), (end, "]")
    for at, mark in sorted(marks, key=lambda it: (it[0], "[|]".index(it[1])), reverse=True): text = text[:at] + mark.encode() + text[at:]
    return text.decode()


def read():
    """Takes lines until the core ends, on a thread of its own: a core that nobody reads stops at a full pipe."""
    for line in core.stdout:
        message = json.loads(line)
        if "id" in message: got.append([]), answers.put(message)
        got[-1].append(line.decode().rstrip("\n"))
        if message.get("method") == "update": screen[:] = after(screen, message["params"]["update"]["ops"])
    answers.put(None)


def main():
    """Types the input, and prints the screen then, or the session."""
    global core
    core = subprocess.Popen([sys.argv[1], "alone"], stdin=subprocess.PIPE, stdout=subprocess.PIPE)
    threading.Thread(target=read, daemon=True).start()
    for width in filter(str.isdigit, sys.argv[2:]): request("modify_user_config", {"domain": "general", "changes": {"wrap_width": int(width)}})
    view, clipboard = request("new_view", {}), ""
    for line in sys.stdin:
        typed = [part for part in KEY.split(line) if part]
        if typed[0] in KEYS and all(part in KEYS for part in typed[:-1]) and typed[-1] == "\n": typed.pop()
        for part in typed:
            method = KEYS.get(part, "insert")
            chars = clipboard if method == "paste" else part
            members = {"params": {"chars": chars}} if method in ("insert", "paste") else {}
            result = request("edit", {"view_id": view, "method": method, **members})
            if method in ("copy", "cut"): clipboard = result
    core.stdin.close()
    while answers.get() is not None: pass
    for line in [] if "--script" in sys.argv else screen: print(f"{line.get('ln', ''):4}  {shown(line)}" if line else "      -")
    for line, lines in zip(sent, got if "--script" in sys.argv else []): print("> " + line, *("< " + it for it in lines), sep="\n")


if __name__ == "__main__": main()
