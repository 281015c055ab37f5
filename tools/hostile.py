#!/usr/bin/env python3
"""Sends lines that stray from good ones through a session by hand, and compares what becomes of each with a model of what is refused, made of the
pages for authors. It ends with status 1 where one differs, or a session ends.

    python3 tools/hostile.py crates/session_by_hand/out/session_by_hand 1000000 [SEED]

Each thousand lines are a session of their own, with one plugin. Half of the lines are the front end's. A line strays in one to three bytes or members.
What a line that is not refused does to a text is not compared; nor is what the model can't know of a revision's text: there the answer is one of those
that the page has for it.
"""
import json, math, os, random, re, subprocess, sys

TOP = os.path.dirname(os.path.dirname(os.path.abspath(__file__)))
EACH = 1000
PARSE, INVALID, NO_METHOD, BAD = (-32700, "parse error"), (-32600, "invalid request"), -32601, -32602
ANY = object()  # the model does not know whether it is refused

with open(f"{TOP}/docs/methods.lines", encoding="utf-8") as it: table = [json.loads(line) for line in it]
outer = {it["name"]: it for it in table if not it["edit"]}
inner = {it["name"]: it for it in table if it["edit"]}
idle = lambda name: name.startswith("debug_")


class Refused(Exception): pass


def no_float(word):
    value = float(word)
    if math.isinf(value): raise ValueError
    return value


def whole(word):
    """A number without fraction and exponent, as it is read: what has no room in 64 bits is one with a fraction, and so is -0."""
    value = int(word) if len(word) < 400 else None
    if word == "-0" or value is None or not -2**63 <= value < 2**64: return no_float(word)
    return value


def depth(value): return 1 + max(map(depth, value.values() if isinstance(value, dict) else value), default=0) if isinstance(value, (dict, list)) else 0


def has_half(value):
    if isinstance(value, str): return any(0xD800 <= ord(char) < 0xE000 for char in value)
    if isinstance(value, list): return any(map(has_half, value))
    return isinstance(value, dict) and any(has_half(it) for pair in value.items() for it in pair)


def read(line):
    """The value of a line of JSON; ValueError where it is none."""
    def none(_): raise ValueError
    value = json.loads(line.decode("utf-8"), parse_float=no_float, parse_int=whole, parse_constant=none)
    if has_half(value) or depth(value) > 127: raise ValueError
    return value


def is_whole(value): return isinstance(value, int) and not isinstance(value, bool)


def kind(value, word):
    if word == "any": return True
    if word == "text": return isinstance(value, str)
    if word == "truth": return isinstance(value, bool)
    if word == "object": return isinstance(value, dict)
    if word == "list": return isinstance(value, list)
    if word == "whole number": return is_whole(value) and abs(value) <= 2**40
    low = re.match(r"below 2\^(\d+)$", word)
    return is_whole(value) and 0 <= value < 2 ** int(low[1])


def request(line, ids):
    """The id, the method and the params of a line, or the refusal that it gets by itself."""
    try: value = read(line)
    except (ValueError, RecursionError): raise Refused(PARSE, None)
    if not isinstance(value, dict) or not isinstance(value.get("method"), str): raise Refused(INVALID, None)
    if "id" in value and not isinstance(value["id"], str) and not (is_whole(value["id"])): raise Refused(INVALID, None)
    return value.get("id"), value["method"], value.get("params")


def bad(member, id): return Refused((BAD, f"invalid params: {member}"), id)


def members(rows, params, where, id):
    """Looks at the members in order; what stands there of each."""
    held = {}
    for row in rows:
        name, optional = row["name"], row["optional"]
        if where == "list": at = params[int(name)] if isinstance(params, list) and int(name) < len(params) else None
        else: at = params.get(name) if isinstance(params, dict) else None
        there = at is not None or (row["kind"] == "any" and (name in params if isinstance(params, dict) else False))
        if not there:
            if not optional: raise bad(name, id)
            held[name] = None
        elif not kind(at, row["kind"]) or name in ("regex", "whole_words") and at: raise bad(name, id)
        else: held[name] = at
    return held


def front(line, views):
    """What a line of the front end is refused by, if it is; raises Refused. The views that are open change with it."""
    id, name, params = request(line, None)
    if idle(name): return
    if name not in outer: raise Refused((NO_METHOD, f"method not found: {name}"), id)
    if name == "edit":
        asked = params.get("method") if isinstance(params, dict) else None
        if isinstance(asked, str) and asked not in inner and not idle(asked): raise Refused((NO_METHOD, f"method not found: {asked}"), id)
    held = members(outer[name]["members"], params, outer[name]["params"], id)
    if name == "edit":
        asked, more = held["method"], params.get("params")
        if asked in inner:
            rows = inner[asked]["members"]
            found = members(rows, more, inner[asked]["params"], id)
            if asked in ("scroll", "request_lines") and max(found["1"], 0) < max(found["0"], 0): raise bad("1", id)
            if asked == "gesture" and found["ty"] not in ("point_select", "toggle_sel", "range_select", "word_select", "line_select"): raise bad("ty", id)
    if name == "modify_user_config" and held["domain"] == "general":
        changes = held["changes"]
        for word, test in (("tab_size", lambda it: is_whole(it) and 1 <= it <= 16), ("wrap_width", lambda it: is_whole(it) and -2**40 <= it <= 10000),
                           ("translate_tabs_to_spaces", lambda it: isinstance(it, bool))):
            if word in changes and not test(changes[word]): raise bad("changes", id)
    if name in ("edit", "save", "close_view") and held["view_id"] not in views["open"]: raise bad("view_id", id)
    if name == "close_view": views["open"].discard(held["view_id"])
    if name == "new_view":
        views["count"] += 1
        views["open"].add(f"view-id-{views['count']}")


def style(value):
    if not isinstance(value, dict): return False
    for word, test in (("fg_color", lambda it: kind(it, "below 2^32")), ("bg_color", lambda it: kind(it, "below 2^32")),
                       ("weight", lambda it: is_whole(it) and 0 <= it <= 1000), ("italic", lambda it: isinstance(it, bool)), ("underline", lambda it: isinstance(it, bool))):
        if value.get(word) is not None and not test(value[word]): return False
    return True


def element(value):
    if not isinstance(value, dict): return False
    if "copy" in value:
        pair = value["copy"]
        return "insert" not in value and isinstance(pair, list) and len(pair) == 2 and all(kind(it, "below 2^63") for it in pair)
    return isinstance(value.get("insert"), str)


def delta(value):
    return isinstance(value, dict) and kind(value.get("base_len"), "below 2^63") and isinstance(value.get("els"), list) and all(map(element, value["els"]))


def plugin(line, views):
    """The same of a line of a plugin; ANY where the text of a revision decides."""
    id, name, params = request(line, None)
    number = lambda it: kind(it, "below 2^63")
    text, truth = (lambda it: isinstance(it, str)), (lambda it: isinstance(it, bool))
    rows = {
        "edit": [("view_id", text), ("rev", number), ("delta", delta), ("priority", lambda it: kind(it, "below 2^32")), ("after_cursor", truth), ("author", text),
                 ("undo_group", lambda it: it is None or number(it))],
        "get_data": [("view_id", text), ("rev", number), ("start", number), ("max_size", number)],
        "update_spans": [("view_id", text), ("rev", number), ("start", number), ("len", number), ("spans", None)],
        "line_count": [("view_id", text)], "alert": [("msg", text)], "ack": [("view_id", text), ("rev", number)]}
    if name not in rows: raise Refused((NO_METHOD, f"method not found: {name}"), id)
    held = params if isinstance(params, dict) else {}
    for word, test in rows[name]:
        at = held.get(word)
        if word == "spans":
            fits = isinstance(at, list) and all(isinstance(it, dict) and number(it.get("start")) and number(it.get("end")) and style(it.get("style"))
                                                and it["start"] <= it["end"] <= held["len"] for it in at)
        else: fits = test(at)
        if not fits: raise bad(word, id)
    if name == "alert": return
    if held["view_id"] not in views["open"]: raise bad("view_id", id)
    if name == "line_count": return
    return ANY


# ---- lines that stray

VIEW = "view-id-1"
GOOD_FRONT = [
    {"id": 1, "method": "new_view", "params": {}}, {"id": 2, "method": "new_view", "params": {"file_path": "a b"}},
    {"id": 3, "method": "save", "params": {"file_path": "s", "view_id": VIEW}}, {"method": "close_view", "params": {"view_id": "view-id-2"}},
    {"id": "i", "method": "modify_user_config", "params": {"changes": {"tab_size": 4, "wrap_width": 20}, "domain": "general"}}, {"method": "client_started", "params": {}}]
for name, rows in inner.items():
    values = {"whole number": 0, "text": "aé", "truth": False}
    held = {it["name"]: "point_select" if it["name"] == "ty" else values[it["kind"]] for it in rows["members"]}
    params = {"method": name, "view_id": VIEW}
    if held: params["params"] = list(held.values()) if rows["params"] == "list" else held
    GOOD_FRONT.append({"id": 5, "method": "edit", "params": params})
EDIT = {"after_cursor": False, "author": "p", "delta": {"base_len": 0, "els": [{"insert": "x"}]}, "priority": 1, "rev": 0, "view_id": VIEW}
GOOD_PLUGIN = [
    {"id": 1, "method": "edit", "params": EDIT}, {"id": 1, "method": "edit", "params": {**EDIT, "delta": {"base_len": 2, "els": [{"copy": [0, 2]}]}, "undo_group": 1}},
    {"id": 2, "method": "get_data", "params": {"max_size": 9, "rev": 0, "start": 0, "view_id": VIEW}}, {"id": "c", "method": "line_count", "params": {"view_id": VIEW}},
    {"method": "update_spans", "params": {"len": 2, "rev": 0, "spans": [{"end": 1, "start": 0, "style": {"weight": 700, "fg_color": 1}}], "start": 0, "view_id": VIEW}},
    {"id": 3, "method": "alert", "params": {"msg": "m"}}, {"id": 4, "method": "ack", "params": {"rev": 0, "view_id": VIEW}}]
STRAY = [None, True, False, 0, -1, 1, 1.5, 1e300, 2**31, 2**32, 2**40, 2**40 + 1, 2**53, 2**63 - 1, 2**63, 2**64, -2**63 - 1, "", "a", "é", "\0", VIEW, "view-id-2", "view-id-9",
         [], [0], [0, 0], [[]], {}, {"a": 0}, "edit", "insert", "debug_x", "general"]
BYTES = [b'"', b"\\", b"{", b"}", b"[", b"]", b",", b":", b" ", b"\t", b"\0", b"\x1f", b"\x7f", b"\x80", b"\xff", b"\xc3", b"\xed\xa0\x80", b"\\ud800", b"\\u0041", b"0", b"-", b".", b"e",
         b"9" * 400, b"null", b"true", b"[" * 130, b"\r"]


def places(value, at=()):
    """Each place within a value."""
    for key in list(value) if isinstance(value, dict) else range(len(value)) if isinstance(value, list) else ():
        yield at + (key,)
        yield from places(value[key], at + (key,))


def strays_in_member(line, draw):
    line = json.loads(json.dumps(line))
    all_places = [*places(line)]
    if not all_places: return line
    at = draw.choice(all_places)
    within = line
    for key in at[:-1]: within = within[key]
    how = draw.randrange(5)
    if how == 0: del within[at[-1]]
    elif how == 1 and isinstance(within, dict): within[draw.choice(["x", "id", "method", "params", "rev", "view_id"])] = within.pop(at[-1])
    else: within[at[-1]] = draw.choice(STRAY)
    return line


def strays_in_byte(line, draw):
    at = draw.randrange(len(line) + 1)
    how = draw.randrange(4)
    if how == 0: return line[:at] + line[at + 1:]
    if how == 1: return line[:at] + draw.choice(BYTES) + line[at:]
    if how == 2: return line[:at]
    return line[:at] + bytes([draw.randrange(256)]) + line[at + 1:]


def drawn(draw, good):
    line = draw.choice(good)
    for _ in range(draw.randrange(3)): line = strays_in_member(line, draw)
    line = json.dumps(line, ensure_ascii=draw.random() < 0.5).encode()
    for _ in range(draw.randrange(3)): line = strays_in_byte(line, draw)
    return line.replace(b"\n", b" ")


# ---- one session

def wanted(caller, line, views):
    """The head of its reply and what is written first, or None where the model does not say."""
    try: said = (front if caller == 0 else plugin)(line, views)
    except Refused as refused:
        (code, message), id = refused.args
        error = json.dumps({"error": {"code": code, "message": message}, "id": id}, separators=(",", ":"), sort_keys=True, ensure_ascii=False)
        if caller: return "= refused " + error, None
        if id is None and code not in (PARSE[0], INVALID[0]):
            return "= taken", json.dumps({"method": "alert", "params": {"msg": message}}, separators=(",", ":"), ensure_ascii=False)
        return "= taken", error
    return (None, None) if said is ANY else ("= taken", "")


def plain(text):
    """What is written of a text, where escapes may be written in several ways."""
    try: return json.loads(text)
    except ValueError: return text


def agrees(caller, want, head, first):
    reply, written = want
    if reply is None:
        if head.startswith("= taken"): return True
        error = plain(head[len("= refused "):])
        return head.startswith("= refused ") and isinstance(error, dict) and error["error"]["code"] in (3, 4, 5, 6, BAD)
    if caller:
        if reply.startswith("= refused "): return head.startswith("= refused ") and plain(head[10:]) == plain(reply[10:])
        return head.startswith("= taken") and not (head[8:] and "error" in plain(head[8:]))
    if head != reply: return False
    if written: return first is not None and plain(first[2:]) == plain(written)
    return first is None or not (isinstance(plain(first[2:]), dict) and ("error" in plain(first[2:]) or plain(first[2:]).get("method") == "alert"))


def play(program, draw):
    """One session: how many lines were refused, and what differs first, if anything."""
    views = {"open": set(), "count": 0}
    calls = [(0, b'{"id":0,"method":"new_view"}')]
    calls += [(0, drawn(draw, GOOD_FRONT)) if draw.random() < 0.5 else (1, drawn(draw, GOOD_PLUGIN)) for _ in range(EACH - 1)]
    calls = [(caller, line) for caller, line in calls if not line.startswith(b"!")]
    given = b"plugins 1\n" + b"".join(b"%d %s\n" % call for call in calls)
    ran = subprocess.run([program], input=given, capture_output=True)
    if ran.returncode: return 0, f"status {ran.returncode}: {ran.stderr.decode(errors='replace')}"
    replies = []
    for line in ran.stdout.decode().split("\n")[:-1]:
        if line.startswith("= "): replies.append([line])
        else: replies[-1].append(line)
    if len(replies) != len(calls): return 0, f"{len(replies)} replies to {len(calls)} calls"
    refused = 0
    for (caller, line), reply in zip(calls, replies):
        want = wanted(caller, line, views)
        if not agrees(caller, want, reply[0], reply[1] if len(reply) > 1 else None): return refused, f"{caller} {line!r}\n  wanted {want}\n  got {reply[:2]}"
        refused += reply[0].startswith("= refused") or (want[1] not in (None, ""))
    return refused, None


if len(sys.argv) not in (3, 4): sys.exit(__doc__)
count, seed = int(sys.argv[2]), int(sys.argv[3]) if len(sys.argv) > 3 else 1
refused = 0
for number in range(max(count // EACH, 1)):
    more, differs = play(sys.argv[1], random.Random(seed * 1000003 + number))
    refused += more
    if differs:
        print(f"session {number} of seed {seed}: {differs}")
        sys.exit(1)
print(f"{max(count // EACH, 1) * EACH} lines, of which {refused} were refused, none otherwise than the model says")
