#!/usr/bin/env python3
"""Plays each script of the protocol in which no plugin has a turn and no call fails on threads, as `xi_core --no-plugins` does, and names each that
comes to something else than it says: other bytes, another status, other files. Status 1 where there is one.

    python3 tools/thread_rows.py CORE
"""
import glob, os, re, subprocess, sys, tempfile

TOP = os.path.dirname(os.path.dirname(os.path.abspath(__file__)))
CORE = os.path.abspath(sys.argv[1])


class Script:
    """What a script says: the bytes of both ends, the status, and the files before and after, by their paths."""

    def __init__(self, lines):
        self.given, self.taken, self.status, self.before, self.after = b"", b"", 0, {}, {}
        files = path = None
        for line in lines:
            mark, _, text = line.partition(b" ")
            if mark == b">": self.given += text + b"\n"
            elif mark == b">|": self.given += text
            elif mark == b">*": self.given += b"a" * int(text)
            elif mark == b"<": self.taken += text + b"\n"
            elif mark == b"<|": self.taken += text
            elif mark == b"=": self.status = int(text)
            elif mark in (b"@", b"@="): files, path = (self.before if mark == b"@" else self.after), text; files[path] = b""
            elif mark == b"@>": files[path] += text + b"\n"
            elif mark == b"@|": files[path] += text
            elif mark == b"@-": self.after[text] = None

    def is_kept(self):
        """Whether the program does what it says, on threads. A file of which nothing is said afterwards is as it was."""
        with tempfile.TemporaryDirectory() as folder:
            there = lambda path: os.path.join(os.fsencode(folder), path)
            for path, held in self.before.items():
                with open(there(path), "wb") as file: file.write(held)
            run = subprocess.run([CORE, "--no-plugins"], input=self.given, capture_output=True, cwd=folder, timeout=60)
            found = {path: open(there(path), "rb").read() for path in os.listdir(os.fsencode(folder))}
        wanted = {path: held for path, held in {**self.before, **self.after}.items() if held is not None}
        return (run.stdout, run.returncode, found) == (self.taken, self.status, wanted)


failed = count = 0
for path in sorted(glob.glob(f"{TOP}/crates/protocol_cases/data/*/*.script")):
    with open(path, "rb") as file: lines = file.read().split(b"\n")
    if any(re.match(rb"!|\d+[<>.!]", line) for line in lines): continue
    count += 1
    if not Script(lines).is_kept(): failed = print(f"threads: {os.path.basename(path)} went another way") or 1
if count < 100: failed = print(f"threads: only {count} scripts were found") or 1
sys.exit(failed)
