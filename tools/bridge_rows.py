#!/usr/bin/env python3
"""Runs examples/xi_bridge.py over what four front ends for xi send at their start and in a first minute, and over each name that it knows,
and names each row that went another way; status 1 where there is one. What the front ends send is from memory of their protocol.

    python3 tools/bridge_rows.py CORE
"""
import json, os, subprocess, sys, tempfile

TOP = os.path.dirname(os.path.dirname(os.path.abspath(__file__)))
CORE = os.path.abspath(sys.argv[1])
VIEW = "view-id-1"
failed = 0


def edit(method, params=None, **more): return {"method": "edit", "params": {"method": method, "view_id": VIEW, **({} if params is None else {"params": params})}, **more}


def bridged(lines, folder, core=CORE):
    """What comes of these lines: what the bridge wrote, what it said beside, and its status."""
    given = "".join(json.dumps(line) + "\n" for line in lines)
    run = subprocess.run([sys.executable, f"{TOP}/examples/xi_bridge.py", core], input=given, capture_output=True, encoding="utf-8", cwd=folder, timeout=120)
    return [json.loads(line) for line in run.stdout.splitlines()], run.stderr, run.returncode


def row(name, is_right):
    global failed
    if not is_right: failed = print(f"bridge: {name} went another way") or 1


def screen(said):
    """The text of the last update, which has all lines: the texts of these rows fit into the window."""
    updates = [it["params"]["update"] for it in said if it.get("method") == "update"]
    return "".join(line["text"] for op in updates[-1]["ops"] for line in op.get("lines", []))


def clean(said): return all("error" not in it and it.get("method") != "alert" for it in said)
def answers(said): return [it["id"] for it in said if "id" in it]


# what each front end sends; a text of four lines stands in the file
MAC = [
    {"method": "client_started", "params": {"client_extras_dir": "extras", "config_dir": "config"}},
    {"method": "set_theme", "params": {"theme_name": "InspiredGitHub"}},
    {"id": 0, "method": "new_view", "params": {"file_path": "notes.txt"}},
    edit("resize", {"height": 480, "width": 640}), edit("scroll", [0, 3]),
    edit("gesture", {"col": 0, "line": 0, "ty": {"select": {"granularity": "point", "multi": False}}}),
    edit("insert", {"chars": "x"}), edit("insert", {"chars": "y"}), edit("scroll_page_down"),
    edit("move_down_and_modify_selection"), edit("copy", id=1), edit("move_to_end_of_document"), edit("paste", {"chars": "!"}),
    edit("find", {"case_sensitive": False, "chars": "two", "regex": False, "whole_words": False}),
    edit("find_next", {"allow_same": False, "modify_selection": "set", "wrap_around": True}),
    edit("cancel_operation"), edit("move_to_beginning_of_paragraph"), edit("insert", {"chars": "z"}), edit("undo"), edit("redo"),
    {"method": "save", "params": {"file_path": "notes.txt", "view_id": VIEW}}, {"method": "close_view", "params": {"view_id": VIEW}},
]
GTK = [
    {"method": "client_started", "params": {}},
    {"method": "modify_user_config", "params": {"changes": {"tab_size": 8, "translate_tabs_to_spaces": True}, "domain": "general"}},
    {"id": 1, "method": "new_view", "params": {"file_path": "notes.txt"}},
    {"id": 2, "method": "get_config", "params": {"view_id": VIEW}},
    edit("scroll", [0, 40]), edit("click", [1, 1, 0, 1]), edit("insert", {"chars": "é"}), edit("insert_newline"), edit("page_up_and_modify_selection"),
    edit("cut", id=3), edit("yank"), edit("select_all"), edit("collapse_selections"), edit("delete_to_beginning_of_line"),
    edit("move_to_beginning_of_document"), edit("delete_to_end_of_paragraph"), edit("yank"), edit("yank"), edit("undo"),
    {"id": 4, "method": "save", "params": {"file_path": "notes.txt", "view_id": VIEW}}, {"method": "close_view", "params": {"view_id": VIEW}},
]
TERMINAL = [
    {"method": "client_started", "params": {}}, {"id": 7, "method": "new_view", "params": {"file_path": "notes.txt"}},
    edit("scroll", [0, 24]), edit("move_down"), edit("move_word_right"), edit("insert", {"chars": "_"}), edit("scroll_page_down"), edit("scroll_page_up"),
    edit("move_right_and_modify_selection"), edit("copy", id=8), edit("delete_backward"), edit("move_to_right_end_of_line"), edit("delete_to_end_of_paragraph"),
    edit("duplicate_line"), {"method": "save", "params": {"file_path": "notes.txt", "view_id": VIEW}}, {"method": "close_view", "params": {"view_id": VIEW}},
]
WINDOWS = [
    {"method": "client_started", "params": {}}, {"id": 0, "method": "new_view", "params": {"file_path": "notes.txt"}},
    {"method": "modify_user_config", "params": {"changes": {"word_wrap": False, "wrap_width": 0}, "domain": "general"}},
    edit("scroll", [0, 30]), edit("request_lines", [0, 30]), edit("click", [3, 0, 0, 1]), edit("drag", [3, 2, 0]), edit("insert", {"chars": "4"}),
    edit("gesture", {"col": 1, "line": 0, "ty": "multi_word_select"}), edit("selection_for_find", {"case_sensitive": True}), edit("cut", id=1), edit("insert_tab"),
    edit("move_forward"), edit("move_backward_and_modify_selection"), edit("delete_backward"), edit("yank"),
    {"method": "save", "params": {"file_path": "notes.txt", "view_id": VIEW}}, {"method": "close_view", "params": {"view_id": VIEW}},
]
AT_FIRST = "one\ntwo\nthree\nfour"
FRONT_ENDS = {
    "a front end of a desktop": (MAC, "xyone\nztwo\nthree\nfour!"), "one of another desktop": (GTK, "one\nté\nwo\nthree\n"), "one in a terminal": (TERMINAL, "ne\nne\ntwo_\nthree\nfour"), "one of a third desktop": (WINDOWS, "\tonetwo\nthree\n4ur"),
}
# each name that the bridge knows, on a text with the caret at its end: the lines behind the opening, and the text then
NAMES = {
    "move_backward": ("ab", [edit("move_backward"), edit("insert", {"chars": "-"})], "a-b"),
    "move_forward": ("ab", [edit("move_to_beginning_of_document"), edit("move_forward"), edit("insert", {"chars": "-"})], "a-b"),
    "move_backward with selection": ("ab", [edit("move_backward_and_modify_selection"), edit("insert", {"chars": "-"})], "a-"),
    "move_forward with selection": ("ab", [edit("move_to_beginning_of_document"), edit("move_forward_and_modify_selection"), edit("insert", {"chars": "-"})], "-b"),
    "to a paragraph's beginning": ("a\nbc", [edit("move_to_beginning_of_paragraph"), edit("insert", {"chars": "-"})], "a\n-bc"),
    "to a paragraph's end": ("a\nbc", [edit("move_to_beginning_of_document"), edit("move_to_end_of_paragraph"), edit("insert", {"chars": "-"})], "a-\nbc"),
    "to a paragraph's beginning with selection": ("a\nbc", [edit("move_to_beginning_of_paragraph_and_modify_selection"), edit("insert", {"chars": "-"})], "a\n-"),
    "to a paragraph's end with selection": ("ab", [edit("move_to_beginning_of_document"), edit("move_to_end_of_paragraph_and_modify_selection"), edit("insert", {"chars": "-"})], "-"),
    "a page up": ("a\nb\nc\nd\ne", [edit("scroll", [0, 2]), edit("scroll", [0, 3]), edit("scroll_page_up"), edit("insert", {"chars": "-"}), edit("scroll", [0, 9])], "a\nb-\nc\nd\ne"),
    "a page down": ("a\nb\nc\nd\ne", [edit("move_to_beginning_of_document"), edit("scroll", [0, 2]), edit("scroll_page_down"), edit("insert", {"chars": "-"}), edit("scroll", [0, 9])], "a\nb\n-c\nd\ne"),
    "a page up with selection": ("a\nb\nc", [edit("scroll", [0, 1]), edit("page_up_and_modify_selection"), edit("insert", {"chars": "-"}), edit("scroll", [0, 9])], "a\nb-"),
    "a page down with selection": ("a\nb\nc", [edit("move_to_beginning_of_document"), edit("scroll", [0, 1]), edit("page_down_and_modify_selection"), edit("insert", {"chars": "-"}), edit("scroll", [0, 9])], "-b\nc"),
    "to the line's end deleted": ("a\nbc", [edit("move_left"), edit("delete_to_end_of_paragraph"), edit("delete_to_end_of_paragraph"), edit("yank"), edit("yank")], "a\nbcc"),
    "to the line's beginning deleted": ("a\nbc", [edit("move_left"), edit("delete_to_beginning_of_line"), edit("delete_to_beginning_of_line")], "a\nc"),
    "the cut yanked": ("abc", [edit("move_left_and_modify_selection"), edit("cut"), edit("yank"), edit("yank")], "abcc"),
    "a line twice": ("a\nb", [edit("duplicate_line"), edit("move_up"), edit("move_up"), edit("duplicate_line")], "a\na\nb\nb"),
    "the selection sought": ("aba", [edit("move_left_and_modify_selection"), edit("selection_for_find"), edit("find_next", {"wrap_around": True}), edit("insert", {"chars": "-"})], "-ba"),
    "the word sought": ("ab cd", [edit("selection_for_find"), edit("insert", {"chars": "-"})], "ab -"),
    "all found": ("aba", [edit("move_left_and_modify_selection"), edit("find_all"), edit("find_next", {"wrap_around": True}), edit("insert", {"chars": "-"})], "-ba"),
    "operations cancelled": ("ab", [edit("select_all"), edit("cancel_operation"), edit("insert", {"chars": "-"})], "ab-"),
    "a point selected": ("ab", [edit("gesture", {"col": 1, "line": 0, "ty": {"select": {"granularity": "point", "multi": False}}}), edit("insert", {"chars": "-"})], "a-b"),
    "a point more": ("ab", [edit("gesture", {"col": 1, "line": 0, "ty": {"select": {"granularity": "point", "multi": True}}}), edit("insert", {"chars": "-"})], "a-b-"),
    "a word selected": ("ab cd", [edit("gesture", {"col": 1, "line": 0, "ty": {"select": {"granularity": "word", "multi": False}}}), edit("insert", {"chars": "-"})], "- cd"),
    "a line selected": ("a\nb", [edit("gesture", {"col": 0, "line": 0, "ty": {"select": {"granularity": "line", "multi": False}}}), edit("insert", {"chars": "-"})], "-b"),
    "a selection extended": ("abc", [edit("gesture", {"col": 1, "line": 0, "ty": {"select_extend": {"granularity": "point"}}}), edit("insert", {"chars": "-"})], "a-"),
}


def main():
    with tempfile.TemporaryDirectory() as folder:
        for name, (lines, wanted) in FRONT_ENDS.items():
            with open(f"{folder}/notes.txt", "w", encoding="utf-8") as it: it.write(AT_FIRST)
            said, beside, status = bridged(lines, folder)
            with open(f"{folder}/notes.txt", encoding="utf-8") as it: text = it.read()
            row(name, (text, beside, status) == (wanted, "", 0) and clean(said) and answers(said) == [it["id"] for it in lines if "id" in it])
        for name, (text, lines, wanted) in NAMES.items():
            said, beside, status = bridged([{"id": 0, "method": "new_view"}, edit("insert", {"chars": text}), *({**it, "id": 5} for it in lines)], folder)
            row(name, (screen(said), beside, status) == (wanted, "", 0) and clean(said) and answers(said) == [0] + [5] * len(lines))
        said, beside, status = bridged([{"id": 0, "method": "new_view"}, edit("transpose"), {"id": 1, "method": "nobody's"}], folder)
        row("a name that is nobody's", beside == "xi_bridge: passed over: edit transpose\nxi_bridge: passed over: nobody's\n" and status == 0 and answers(said) == [0, 1] and not any(it.get("method") == "alert" for it in said))
        said, _, _ = bridged([{"method": "client_started"}, {"id": 0, "method": "new_view"}, {"id": 1, "method": "get_config"}], folder)
        row("what front ends wait for", [it.get("method", it.get("id")) for it in said if it.get("method") != "update"] == ["available_themes", "theme_changed", "available_plugins", 0, "config_changed", 1])
        many = [{**edit("move_left"), "id": it} for it in range(100000)]
        said, _, status = bridged([{"id": "v", "method": "new_view"}, edit("scroll", [100, 101]), *many], folder)
        row("100,000 lines", answers(said) == ["v", *range(100000)] and status == 0)
        ends = f"{folder}/core"
        with open(ends, "w") as it: it.write(f'#!/bin/sh\n[ "$1" = alone ] && {{ read line; exit 7; }}\nexec {CORE} "$@"\n')
        os.chmod(ends, 0o755)
        row("a core that ends", bridged([{"method": "client_started"}] * 3, folder, ends)[2] == 7)
    sys.exit(failed)


main()
