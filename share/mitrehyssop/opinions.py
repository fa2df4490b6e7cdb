"""What a name server refuses in lines that have no other fault: by its manual, and by its own checker if it is installed."""
import os
import re
import shutil
import subprocess
import tempfile
from pathlib import Path

from faults import Fault
from master import Entry

# For each server: the code of its complaints, its name, its checker, and a pattern of the messages of the checker that
# name a line of the file.
SERVERS = {"bind": ("B01", "BIND", ["named-checkzone", "-i", "local", "-k", "ignore"], r":(\d+): (.*)"),
           "nsd": ("D01", "NSD", ["nsd-checkzone"], r":(\d+): (?:(?:error|warning): )?(.*)"),
           "knot": ("K01", "Knot", ["kzonecheck", "-o"], r"(?:line |:)(\d+)[:, ]+(.*)")}


def known(server, text):
    """What NSD and Knot refuse and BIND reads."""
    lines, at = text.split("\n"), 0
    while server != "bind" and at < len(lines):
        entry = Entry(lines, at, nested=True)
        at, first = entry.end, (entry.tokens or [""])[0].upper()
        if entry.depth > 1:
            yield entry.begin, "refuses parentheses inside parentheses: take the inner ones out"
        if first == "$GENERATE":
            yield entry.begin, "does not know $GENERATE: write the records"
        if first == "$ORIGIN" and len(entry.tokens) == 2 and entry.tokens[1][-1:] != ".":
            yield entry.begin, "refuses a relative $ORIGIN: write it with a final dot"


def by_checker(words, pattern, zone, text):
    """The complaints of the server's own checker."""
    program = shutil.which(words[0], path=f"{os.environ.get('PATH', '')}:/usr/sbin:/sbin")
    if not program:
        return
    with tempfile.TemporaryDirectory() as folder:
        file = zone.path if os.path.isfile(zone.path) else os.path.join(folder, "zone")
        if file != zone.path:
            Path(file).write_text(text, encoding="latin-1", newline="")
        done = subprocess.run([program, *words[1:], zone.zone, file], capture_output=True, check=False, timeout=60,
                              cwd=os.path.dirname(os.path.abspath(file)))
    if done.returncode:
        said = (done.stdout + done.stderr).decode("utf-8", "replace")
        placed = [(int(line) - 1, message) for line, message in re.findall(pattern, said)]
        yield from dict.fromkeys(placed[:20]) or [(0, (said.strip() or "it fails without a word").splitlines()[0])]


def of(server, zone, text):
    """The faults that a server finds, with the code of the server."""
    code, name, words, pattern = SERVERS[server]
    there = {fault.place for fault in zone.faults}
    rows = {line: f"{name} {says}" for line, says in known(server, text)}
    for line, says in by_checker(words, pattern, zone, text):
        rows.setdefault(line, f"{name} says: {says.strip()}")
    return [Fault((zone.path, line + 1), code, "", says) for line, says in sorted(rows.items()) if (zone.path, line + 1) not in there]
